//! The proved library against the reference model on generated inputs: a test for
//! each group of cases.
//!
//! `LIROPUVA_ROUNDS=10` runs ten times as many cases; `LIROPUVA_SEED=n` runs
//! the one case with that seed.

use differential::compare::{self, NEVER_TOLD, Tally};
use differential::domain::Domain;
use differential::draft::{Step, trace_words};
use differential::generate::{self, Size};
use differential::irrelevant;
use differential::random::Random;
use differential::relevance::Told;
use differential::runner::assert_at_least;
use differential::unmet::Way;
use differential::walk::{self, Habit};
use differential::wide::Most;
use differential::{damage, runner};
use liropuva::{QUESTIONS, Subject};
use reference::{MAX_ROWS, MAX_STEPS, METHOD_0, Run};

/// The questions whose refusal names an atom. No other's does.
const NAMES_ATOM: [u32; 2] = [29, 30];
/// How often a group answers each number that it must reach.
const LEAST_EACH: u64 = 100;

/// A reference search that tries more steps than this is not compared.
const STEPS_TRIED: u64 = 20_000;
const DEEP_STEPS_TRIED: u64 = 100_000;

/// Depths of more than 16 bits. Cut to 16 bits, the first three would pass
/// question 41.
const WIDE_DEPTHS: [u32; 4] = [65_536, 65_537, 65_568, u32::MAX];

fn replay(domain: &Domain, random: &mut Random, tally: &mut Tally, trace: &[u16]) {
    let room = plan_room(random, trace);
    let (shop, order) = (&domain.shop_words, &domain.order_words);
    compare::replay(tally, random, shop, order, trace, room);
}

/// Mostly enough room for the plan, sometimes more, sometimes too little.
fn plan_room(random: &mut Random, trace: &[u16]) -> usize {
    let steps = usize::from(*trace.first().unwrap_or(&0)).min(usize::from(MAX_STEPS));
    match random.below(20) {
        0 => steps.saturating_sub(1),
        1 => random.between(0, steps),
        2..6 => steps + random.below(9),
        _ => steps,
    }
}

/// Several traces on one domain.
fn traces_case(random: &mut Random, tally: &mut Tally) {
    let (domain, most) = match random.below(100) {
        0..40 => (Domain::generate(random, Size::Tiny), 12),
        40..75 => (Domain::generate(random, Size::Small), 40),
        75..85 => (Domain::generate(random, Size::Bulky), 80),
        85..93 => (Domain::easy(random), 150),
        _ => (Domain::generate(random, Size::Medium), 150),
    };
    for _ in 0..16 {
        let steps = domain.some_steps(random, most);
        let trace = trace_words(&steps);
        replay(&domain, random, tally, &trace);
    }
    let trace = trace_words(&domain.some_steps(random, most));
    compare::checks(tally, &domain.shop_words, &domain.order_words, &trace);
}

/// Damaged sheets and traces.
fn damage_case(random: &mut Random, tally: &mut Tally) {
    let size = random.pick(&[Size::Tiny, Size::Tiny, Size::Small, Size::Bulky]);
    let domain = Domain::generate(random, size);
    let accepted = trace_words(&domain.finished_walk(random, 20));
    for _ in 0..12 {
        let mut shop = domain.draft.0.sheet();
        let mut order = domain.draft.1.sheet();
        let mut trace = accepted.clone();
        let (mut shop_words, mut order_words);
        match random.below(5) {
            0 => {
                damage::rows(random, &mut shop);
                (shop_words, order_words) = (shop.words(), order.words());
            }
            1 => {
                damage::rows(random, &mut order);
                (shop_words, order_words) = (shop.words(), order.words());
            }
            which => {
                (shop_words, order_words) = (shop.words(), order.words());
                let damaged = match which {
                    2 => &mut shop_words,
                    3 => &mut order_words,
                    _ => &mut trace,
                };
                damage::words(random, damaged);
            }
        }
        let room = plan_room(random, &trace);
        compare::replay(tally, random, &shop_words, &order_words, &trace, room);
        compare::checks(tally, &shop_words, &order_words, &trace);
    }
}

/// Sheets and traces at the limits and just past them.
fn limits_case(random: &mut Random, tally: &mut Tally) {
    let (mut shop, mut order) = {
        let shop = generate::shop(random, Size::Large);
        let goals = generate::goal_count(random, Size::Large);
        let order = generate::order(random, shop.atoms, goals);
        (shop, order)
    };
    if random.chance(60) {
        generate::pad_shop(random, &mut shop, usize::from(MAX_ROWS));
    }
    if random.chance(60) {
        generate::pad_order(random, &mut order, usize::from(MAX_ROWS));
    }
    let domain = Domain::new(shop, order);
    let most = random.pick(&[50, 300, 1000]);
    for _ in 0..3 {
        let trace = trace_words(&domain.some_steps(random, most));
        replay(&domain, random, tally, &trace);
        compare::checks(tally, &domain.shop_words, &domain.order_words, &trace);
    }
    for _ in 0..2 {
        let trace = trace_words(&domain.finished_walk(random, 50));
        about_limits(random, tally, &domain, trace);
    }
}

/// One size of the domain at its limit or a little past it, with the rows to go
/// with it.
fn about_limits(random: &mut Random, tally: &mut Tally, domain: &Domain, mut trace: Vec<u16>) {
    let (mut shop, mut order) = domain.draft.clone();
    let past = random.below(3);
    match random.below(8) {
        0 => {
            shop.atoms = 256 + past as u16;
            order.atoms = shop.atoms;
        }
        1 => {
            let action = shop.actions[0].clone();
            shop.actions.resize(254 + past, action);
            shop.methods.clear();
        }
        2 => {
            let mut method = shop.methods[0].clone();
            method.nodes.drain(..method.nodes.len() - 1);
            shop.actions.truncate(255);
            shop.methods = vec![method; 254 + past];
        }
        3 => {
            shop.methods.truncate(10);
            let method = random.below(shop.methods.len());
            let nodes = &mut shop.methods[method].nodes;
            let last = nodes.pop().expect("a node");
            *nodes = vec![last; 62 + past];
        }
        4 => {
            let goal = order.goals[0].clone();
            order.goals.truncate(10);
            order.goals.resize(63 + past, goal);
        }
        5 => generate::pad_shop(random, &mut shop, usize::from(MAX_ROWS) + past),
        6 => generate::pad_order(random, &mut order, usize::from(MAX_ROWS) + past),
        _ => trace = trace_words(&vec![(0, 0); usize::from(MAX_STEPS) + past]),
    }
    let (shop, order) = (shop.words(), order.words());
    let room = plan_room(random, &trace);
    compare::replay(tally, random, &shop, &order, &trace, room);
    compare::checks(tally, &shop, &order, &trace);
}

/// Traces of as many steps as there may be, often accepted.
fn long_case(random: &mut Random, tally: &mut Tally) {
    let size = random.pick(&[Size::Small, Size::Bulky, Size::Medium, Size::Large]);
    let domain = if random.chance(30) {
        Domain::easy(random)
    } else {
        Domain::generate(random, size)
    };
    let mut run = domain.run();
    let habit = Habit {
        release: random.pick(&[0, 5, 30]),
        method: random.pick(&[0, 20, 50]),
    };
    let most = usize::from(MAX_STEPS);
    let mut steps = walk::walk(random, &domain.shop, &mut run, habit, most - 200);
    let left = most - steps.len();
    let end = walk::walk(random, &domain.shop, &mut run, Habit::FINISH, left);
    steps.extend(end);
    walk::fill(&mut steps, &domain.shop, most);
    replay(&domain, random, tally, &trace_words(&steps));
    damage::steps(random, &mut steps);
    steps.truncate(most);
    replay(&domain, random, tally, &trace_words(&steps));
}

/// Searches on small domains, some of them damaged.
fn search_case(random: &mut Random, tally: &mut Tally) {
    let size = random.pick(&[Size::Tiny, Size::Tiny, Size::Small]);
    let domain = Domain::generate(random, size);
    let (mut shop, mut order) = (domain.shop_words, domain.order_words);
    if random.chance(10) {
        damage::words(random, &mut shop);
    }
    if random.chance(10) {
        damage::words(random, &mut order);
    }
    for _ in 0..2 {
        let (depth, room) = search_room(random);
        let sheets = (&shop[..], &order[..]);
        compare::search(tally, random, sheets, depth, room, STEPS_TRIED);
    }
}

/// Searches that must go deep. From the greatest depth that ends quickly, so
/// that most find a trace if there is one.
fn deep_search_case(random: &mut Random, tally: &mut Tally) {
    let domain = if random.chance(25) {
        Domain::generate(random, Size::Puzzle)
    } else {
        let (shop, order) = generate::subgoals(random);
        Domain::new(shop, order)
    };
    let sheets = (&domain.shop_words[..], &domain.order_words[..]);
    for depth in [20, 14, 10, 7] {
        let room = 1 + 2 * depth as usize;
        let answer = compare::search(tally, random, sheets, depth, room, DEEP_STEPS_TRIED);
        if let Some(answer) = answer {
            // One step fewer than the shortest: none.
            if answer.number == 0 && answer.place > 0 {
                let depth = answer.place - 1;
                compare::search(tally, random, sheets, depth, room, DEEP_STEPS_TRIED);
            }
            return;
        }
    }
}

/// Both searches against the plainest one: all traces, in order.
fn naive_search_case(random: &mut Random, tally: &mut Tally) {
    let domain = Domain::generate(random, Size::Tiny);
    let depth = random.between(0, 5);
    let expected = (0..=depth).find_map(|steps| first_trace(&domain.shop, &domain.run(), steps));
    let mut room = vec![0; 1 + 2 * depth];
    let (shop, order) = (&domain.shop_words, &domain.order_words);
    let found = reference::search(shop, order, depth as u32, &mut room);
    match expected {
        Some(steps) => {
            assert_eq!(found, Ok(steps.len()));
            assert_eq!(room[..1 + 2 * steps.len()], trace_words(&steps));
        }
        None => assert_eq!(found.map_err(|refusal| refusal.number), Err(43)),
    }
    compare::search(
        tally,
        random,
        (shop, order),
        depth as u32,
        room.len(),
        STEPS_TRIED,
    );
}

/// The first accepted way on with exactly `left` steps, without any pruning.
fn first_trace(shop: &reference::Shop, run: &Run<'_>, left: usize) -> Option<Vec<Step>> {
    if left == 0 {
        return run.waiting().is_empty().then(Vec::new);
    }
    let actions = 1..=shop.actions.len() as u16;
    let methods = (METHOD_0..).take(shop.methods.len());
    let words: Vec<u16> = [0].into_iter().chain(actions).chain(methods).collect();
    for place in 0..run.waiting().len() as u16 {
        for &word in &words {
            let mut next = run.clone();
            if next.step(place, word).is_err() {
                continue;
            }
            if let Some(mut steps) = first_trace(shop, &next, left - 1) {
                steps.insert(0, (place, word));
                return Some(steps);
            }
        }
    }
    None
}

/// A depth, and mostly room for it.
fn search_room(random: &mut Random) -> (u32, usize) {
    let depth = match random.below(20) {
        0 => random.between(33, 40) as u32,
        1 => u32::from(random.word()),
        2 => random.pick(&WIDE_DEPTHS),
        3 => random.between(9, 32) as u32,
        _ => random.between(0, 8) as u32,
    };
    let enough = 1 + 2 * depth.min(40) as usize;
    let room = match random.below(20) {
        0 | 1 => random.below(enough),
        2 => enough - 1,
        3..8 => enough + random.below(9),
        _ => enough,
    };
    (depth, room)
}

/// Searches on sheets near the limits, of few steps.
fn large_search_case(random: &mut Random, tally: &mut Tally) {
    let shop = generate::shop(random, Size::Large);
    let goals = random.pick(&[0, 1, 1, 2, 40]);
    let order = generate::order(random, shop.atoms, goals);
    let (shop, order) = (shop.words(), order.words());
    let depth = random.between(0, 4) as u32;
    let room = 1 + 2 * depth as usize;
    compare::search(tally, random, (&shop, &order), depth, room, STEPS_TRIED);
}

/// Traces on goals of many rows, also with a step that is not relevant, and searches
/// on few such goals.
fn wide_case(random: &mut Random, tally: &mut Tally) {
    let domain = Domain::wide(random, Most::USUAL);
    for _ in 0..4 {
        let steps = [
            domain.some_steps(random, 60),
            domain.walk_failing(random, 20, &[31]),
        ];
        for steps in steps {
            replay(&domain, random, tally, &trace_words(&steps));
        }
    }
    let domain = Domain::wide(random, Most::FEW);
    let sheets = (&domain.shop_words[..], &domain.order_words[..]);
    let depth = random.between(1, 8) as u32;
    let room = 1 + 2 * depth as usize;
    compare::search(tally, random, sheets, depth, room, STEPS_TRIED);
}

/// The groups of cases. A group's seeds follow from its place here.
#[derive(Clone, Copy, Debug, PartialEq, Eq)]
enum Group {
    Traces,
    Damage,
    Limits,
    LongTraces,
    Searches,
    LargeSearches,
    DeepSearches,
    NaiveSearches,
    Wide,
}

/// The group that must reach each question of a subject: replays all but a
/// search's own, searches those. The join's are reached in `tests/joins.rs`.
fn reached_by(subject: Subject) -> Option<Group> {
    match subject {
        Subject::Shop | Subject::Order | Subject::Trace => Some(Group::Damage),
        Subject::Replay => Some(Group::Traces),
        Subject::Search => Some(Group::Searches),
        Subject::Join => None,
    }
}

/// Runs a group. Fails where a call told a number that it does not ask, or where
/// the group did not reach what it must; of a single seed that says nothing.
fn run(group: Group, cases: u64, case: fn(&mut Random, &mut Tally)) -> Tally {
    let start = std::time::Instant::now();
    let first_seed = (group as u64 + 1) * runner::SEEDS_A_GROUP;
    let tally = runner::run_cases(&format!("{group:?}"), first_seed, cases, case);
    println!("{group:?}: {cases} cases a round, {:.1?}", start.elapsed());
    tally.print();
    use Subject::{Order, Replay, Search, Shop, Trace};
    tally.replays.assert_asked(&[Shop, Order, Trace, Replay]);
    tally.searches.assert_asked(&[Shop, Order, Search]);
    tally.checks.assert_asked(&[Shop, Order, Trace]);
    assert_atoms(&tally);
    for question in QUESTIONS {
        if reached_by(question.subject) == Some(group) && question.number != NEVER_TOLD {
            let counts = match question.subject {
                Search => &tally.searches,
                _ => &tally.replays,
            };
            assert_at_least(
                &format!("{question:?}"),
                counts.of(question.number),
                LEAST_EACH,
            );
        }
    }
    tally
}

/// A replay named an atom exactly if its number is one of those that do. So each
/// other number came as often without one as it came at all.
fn assert_atoms(tally: &Tally) {
    for number in tally.replays.numbers() {
        let all = tally.replays.of(number);
        let named = if NAMES_ATOM.contains(&number) { all } else { 0 };
        assert_eq!(tally.unmet.of(number, Way::Named), named, "of {number}");
    }
}

#[test]
fn traces() {
    let tally = run(Group::Traces, 14_000, traces_case);
    assert_at_least("an accepted trace", tally.replays.of(0), 20_000);
    for (number, way) in [
        (29, Way::FirstAtom),
        (29, Way::LastAtom),
        (29, Way::OtherNearer),
        (30, Way::FirstAtom),
        (30, Way::LastAtom),
        (30, Way::OfMethod),
    ] {
        let count = tally.unmet.of(number, way);
        assert_at_least(&format!("{number}, {way:?}"), count, LEAST_EACH);
    }
}

/// Steps were refused for either reason, in each way.
fn assert_irrelevant(tally: &Tally) {
    for told in [Told::Blocked, Told::Neither] {
        for way in irrelevant::Way::ALL {
            let count = tally.irrelevant.of(told, way);
            assert_at_least(&format!("31, {told:?}, {way:?}"), count, LEAST_EACH);
        }
    }
}

#[test]
fn wide_goals() {
    let tally = run(Group::Wide, 2_000, wide_case);
    assert_at_least("an accepted trace", tally.replays.of(0), 2_000);
    assert_at_least("a trace found", tally.searches.of(0), 200);
    assert_at_least("no trace found", tally.searches.of(43), 200);
    assert_irrelevant(&tally);
}

#[test]
fn damage() {
    run(Group::Damage, 4_000, damage_case);
}

#[test]
fn limits() {
    run(Group::Limits, 600, limits_case);
}

#[test]
fn long_traces() {
    let tally = run(Group::LongTraces, 300, long_case);
    assert_at_least("an accepted trace of 4,096 steps", tally.full_traces, 50);
}

#[test]
fn searches() {
    let tally = run(Group::Searches, 6_000, search_case);
    assert_at_least("a trace found", tally.searches.of(0), 500);
}

#[test]
fn large_searches() {
    let tally = run(Group::LargeSearches, 100, large_search_case);
    assert_at_least("a trace found", tally.searches.of(0), 10);
}

#[test]
fn deep_searches() {
    let tally = run(Group::DeepSearches, 10_000, deep_search_case);
    let deep = (10..)
        .take(11)
        .map(|steps| tally.found_steps.of(steps))
        .sum();
    assert_at_least("a trace of 10 to 20 steps found", deep, 500);
}

#[test]
fn naive_searches() {
    let tally = run(Group::NaiveSearches, 2_000, naive_search_case);
    assert_at_least("a trace found", tally.searches.of(0), 500);
}
