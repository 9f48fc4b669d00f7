//! Traces made by walking in the reference model.

use reference::{Literals, METHOD_0, Run, Shop};

use crate::draft::Step;
use crate::random::Random;

/// How a walk chooses, in percent.
#[derive(Clone, Copy, Debug)]
pub struct Habit {
    /// How often it first looks for a release.
    pub release: usize,
    /// How often it looks for a method before an action.
    pub method: usize,
}

impl Habit {
    pub fn random(random: &mut Random) -> Habit {
        Habit {
            release: random.pick(&[0, 40, 70, 90]),
            method: random.pick(&[0, 10, 30, 80]),
        }
    }

    /// Towards an empty waiting list.
    pub const FINISH: Habit = Habit {
        release: 100,
        method: 0,
    };
}

/// Takes up to `most` valid steps, until nothing waits or none is found.
pub fn walk(
    random: &mut Random,
    shop: &Shop,
    run: &mut Run<'_>,
    habit: Habit,
    most: usize,
) -> Vec<Step> {
    let mut steps = Vec::new();
    while steps.len() < most && !run.waiting().is_empty() {
        let Some((place, word)) = valid_step(random, shop, run, habit) else {
            break;
        };
        run.step(place, word).expect("a valid step");
        steps.push((place, word));
    }
    steps
}

/// A walk of up to `most` steps, then as many to finish.
pub fn finished_walk(
    random: &mut Random,
    shop: &Shop,
    run: &mut Run<'_>,
    most: usize,
) -> Vec<Step> {
    let habit = Habit::random(random);
    let mut steps = walk(random, shop, run, habit, most);
    steps.extend(walk(random, shop, run, Habit::FINISH, most));
    steps
}

fn valid_step(random: &mut Random, shop: &Shop, run: &Run<'_>, habit: Habit) -> Option<Step> {
    if random.chance(habit.release)
        && let Some(step) = release_step(random, run)
    {
        return Some(step);
    }
    // A few places only, so that a dead end is soon seen.
    for _ in 0..4 {
        let place = free_place(random, run);
        let methods_first = random.chance(habit.method);
        for methods in [methods_first, !methods_first] {
            if methods && habit.method == 0 {
                continue;
            }
            if let Some(word) = valid_move(random, shop, run, place, methods) {
                return Some((place, word));
            }
        }
    }
    release_step(random, run)
}

/// All places, from a random one on.
fn places(random: &mut Random, run: &Run<'_>) -> impl Iterator<Item = u16> + use<> {
    let len = run.waiting().len();
    let first = random.below(len);
    (0..len).map(move |i| ((first + i) % len) as u16)
}

fn release_step(random: &mut Random, run: &Run<'_>) -> Option<Step> {
    let mut places = places(random, run);
    let place = places.find(|&place| run.check(place, 0).is_ok())?;
    Some((place, 0))
}

fn free_place(random: &mut Random, run: &Run<'_>) -> u16 {
    let mut places = places(random, run);
    let place = places.find(|&place| run.waiting().is_free(usize::from(place)));
    place.expect("the goal at place 0 is free")
}

fn valid_move(
    random: &mut Random,
    shop: &Shop,
    run: &Run<'_>,
    place: u16,
    methods: bool,
) -> Option<u16> {
    let (count, first_word) = if methods {
        (shop.methods.len(), METHOD_0)
    } else {
        (shop.actions.len(), 1)
    };
    if count == 0 {
        return None;
    }
    let first = random.below(count);
    (0..count)
        .map(|i| first_word + ((first + i) % count) as u16)
        .find(|&word| run.check(place, word).is_ok())
}

/// A step that fails this question here, if one is found.
pub fn failing_step(
    random: &mut Random,
    shop: &Shop,
    run: &Run<'_>,
    question: u16,
) -> Option<Step> {
    (0..200)
        .map(|_| aimed_step(random, shop, run, question))
        .find(|&(place, word)| run.check(place, word) == Err(question))
}

fn aimed_step(random: &mut Random, shop: &Shop, run: &Run<'_>, question: u16) -> Step {
    let waiting = run.waiting().len();
    let beyond = random.pick(&[0, 0, 1, 70, usize::from(u16::MAX) - waiting]);
    let place = match question {
        25 => (waiting + beyond) as u16,
        _ => random.below(waiting.max(1)) as u16,
    };
    let word = match question {
        26 => unknown_move(random, shop),
        29 => 0,
        32 => METHOD_0 + random.below(shop.methods.len().max(1)) as u16,
        _ => random_move(random, shop),
    };
    (place, word)
}

fn unknown_move(random: &mut Random, shop: &Shop) -> u16 {
    match random.below(4) {
        0 => 1 + shop.actions.len() as u16,
        1 => METHOD_0 - 1,
        2 => METHOD_0 + shop.methods.len() as u16,
        _ => random.word(),
    }
}

fn random_move(random: &mut Random, shop: &Shop) -> u16 {
    match random.below(3) {
        0 => 0,
        1 => random.below(shop.actions.len() + 1) as u16,
        _ => METHOD_0 + random.below(shop.methods.len() + 1) as u16,
    }
}

/// Steps without regard to the run.
pub fn random_steps(random: &mut Random, shop: &Shop, most: usize) -> Vec<Step> {
    (0..random.between(0, most))
        .map(|_| (random.below(3) as u16, random_move(random, shop)))
        .collect()
}

/// Repeats an action without needs, if one was taken, until there are `most`
/// steps: what was accepted still is.
pub fn fill(steps: &mut Vec<Step>, shop: &Shop, most: usize) {
    let repeats = |&(_, word): &Step| {
        let action = usize::from(word).checked_sub(1);
        let action = action.and_then(|index| shop.actions.get(index));
        action.is_some_and(|action| action.needs == Literals::EMPTY)
    };
    if let Some(number) = steps.iter().position(repeats) {
        let step = steps[number];
        let missing = most.saturating_sub(steps.len());
        steps.splice(number..number, std::iter::repeat_n(step, missing));
    }
}
