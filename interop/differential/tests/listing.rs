//! The built listing program against the reference implementation, on generated
//! folders of files: a test for each group of cases.
//!
//! `LIROPUVA_ROUNDS=10` runs ten times as many cases; `LIROPUVA_SEED=n` runs
//! the one case with that seed.

use differential::compare::Tally;
use differential::domain::Domain;
use differential::draft::{Step, trace_words};
use differential::generate::{self, Size};
use differential::listings::{self, Files, Listings};
use differential::random::Random;
use differential::runner::{self, assert_at_least};
use differential::walk::{self, Habit};
use differential::{cores, damage};
use reference::{MAX_GOALS, MAX_STEPS};

/// Apart from the seeds of the other tests.
const FIRST_SEED: u64 = 200 * runner::SEEDS_A_GROUP;

/// How often each thing must come that a group is there for.
const LEAST_EACH: u64 = 100;

/// The bytes of the largest sheet of a kind, a trace, and a few more.
const MOST_BYTES: usize = 2 * (1 + 2 * MAX_STEPS as usize) + 5;

fn files(domain: &Domain, steps: &[Step]) -> Files {
    let trace = trace_words(steps);
    Files::of_words(&domain.shop_words, &domain.order_words, &trace)
}

fn compare(tally: &mut Tally, files: &Files) -> String {
    listings::compare(&mut tally.listings, files)
}

/// Sheets on which most walks can end well, the most with methods that nest.
fn domain(random: &mut Random) -> Domain {
    match random.below(20) {
        0..10 => nested(random, 6),
        10..12 => nested(random, MAX_GOALS),
        12..14 => joined(random),
        14..16 => Domain::easy(random),
        16 => Domain::generate(random, Size::Tiny),
        17 => Domain::generate(random, Size::Small),
        18 => Domain::generate(random, Size::Bulky),
        _ => {
            let (shop, order) = generate::subgoals(random);
            Domain::new(shop, order)
        }
    }
}

fn nested(random: &mut Random, most_goals: usize) -> Domain {
    let shop = generate::nesting_shop(random);
    let goals = random.between(0, most_goals);
    let order = generate::easy_order(random, shop.atoms, goals);
    Domain::new(shop, order)
}

/// The join of two orders as a sheet: in the back of a trace the steps go on.
fn joined(random: &mut Random) -> Domain {
    let shop = generate::nesting_shop(random);
    let goals = [random.between(0, 6), random.between(0, 6)];
    let [first, second] = goals.map(|goals| generate::easy_order(random, shop.atoms, goals));
    Domain::new(shop, first.join(&second))
}

/// A walk that goes for methods, and one that finishes.
fn deep_walk(random: &mut Random, domain: &Domain, most: usize) -> Vec<Step> {
    let habit = Habit {
        release: random.pick(&[0, 10, 40]),
        method: random.pick(&[60, 90, 100]),
    };
    let mut run = domain.run();
    let mut steps = walk::walk(random, &domain.shop, &mut run, habit, most);
    let left = usize::from(MAX_STEPS) - steps.len();
    steps.extend(walk::walk(
        random,
        &domain.shop,
        &mut run,
        Habit::FINISH,
        left,
    ));
    steps
}

/// Mostly accepted.
fn tree_case(random: &mut Random, tally: &mut Tally) {
    let domain = domain(random);
    let most = random.pick(&[5, 20, 60, 200]);
    let steps = deep_walk(random, &domain, most);
    compare(tally, &files(&domain, &steps));
}

/// Traces of as many steps as there may be.
fn long_case(random: &mut Random, tally: &mut Tally) {
    let domain = nested(random, 12);
    let most = usize::from(MAX_STEPS);
    let mut steps = deep_walk(random, &domain, most - 300);
    walk::fill(&mut steps, &domain.shop, most);
    let text = compare(tally, &files(&domain, &steps));
    let accepted = text.ends_with("4095 65535 65535\n");
    tally.full_traces += u64::from(accepted);
}

/// A step that is refused, or damaged sheets or steps. What was released before is
/// not printed.
fn refused_case(random: &mut Random, tally: &mut Tally) {
    let domain = match random.below(4) {
        0 => domain(random),
        1 => Domain::generate(random, Size::Bulky),
        _ => Domain::generate(random, Size::Small),
    };
    let steps = match random.below(3) {
        0 => domain.some_steps(random, 40),
        1 => domain.failing_walk(random, 60),
        _ => {
            let mut steps = deep_walk(random, &domain, 30);
            damage::steps(random, &mut steps);
            steps.truncate(usize::from(MAX_STEPS));
            steps
        }
    };
    let mut sheets = [domain.draft.0.sheet(), domain.draft.1.sheet()];
    if random.chance(30) {
        let damaged = random.below(2);
        damage::rows(random, &mut sheets[damaged]);
    }
    let [shop, order] = sheets.map(|sheet| sheet.words());
    let mut words = [shop, order, trace_words(&steps)];
    if random.chance(30) {
        let damaged = random.below(3);
        damage::words(random, &mut words[damaged]);
    }
    let [shop, order, trace] = &words;
    compare(tally, &Files::of_words(shop, order, trace));
}

/// Files as bytes: cut anywhere, a byte more, missing, or of bytes at random.
fn bytes_case(random: &mut Random, tally: &mut Tally) {
    let domain = domain(random);
    let steps = deep_walk(random, &domain, 30);
    let mut files = files(&domain, &steps);
    files.missing = random.chance(50);
    let which = random.below(3);
    let file = &mut files.each()[which];
    match random.below(6) {
        0 => file.clear(),
        1 => file.truncate(random.below(file.len() + 1)),
        2 => file.push(random.word() as u8),
        3 => file.extend((0..random.between(2, MOST_BYTES)).map(|_| random.word() as u8)),
        4 => {
            **file = (0..random.below(40))
                .map(|_| random.below(6) as u8)
                .collect()
        }
        _ => {
            **file = (0..random.below(MOST_BYTES))
                .map(|_| random.word() as u8)
                .collect()
        }
    }
    compare(tally, &files);
}

/// Runs a group, whose seeds follow from its number.
fn run(group: u64, name: &str, cases: u64, case: fn(&mut Random, &mut Tally)) -> Tally {
    let first_seed = FIRST_SEED + group * runner::SEEDS_A_GROUP;
    let tally = runner::run_cases(name, first_seed, cases, case);
    println!("{name}: {cases} folders a round");
    tally.listings.print();
    tally
}

#[test]
fn the_long_core() {
    let words = [cores::shop(1).words(), cores::order(1, false).words()];
    let trace = trace_words(&cores::steps());
    let files = Files::of_words(&words[0], &words[1], &trace);
    let text = listings::compare(&mut Listings::default(), &files);
    let tree = "  2 0 0\n  4 0 0\n  6 0 0\n  8 0 0\n9 65535 65535\n";
    assert_eq!(text, tree);
}

#[test]
fn trees() {
    let Tally { listings, .. } = run(0, "trees", 1_500, tree_case);
    assert_at_least("an accepted trace", listings.accepted, 1_000);
    assert_at_least("an order without goals", listings.empty, 50);
    assert_at_least("a line of depth 1", listings.deep(1), LEAST_EACH);
    assert_at_least("a line of depth 2", listings.deep(2), LEAST_EACH);
    assert_at_least("a line of depth 4 or more", listings.deeper(4), LEAST_EACH);
}

#[test]
fn long_traces() {
    let tally = run(1, "long traces", 20, long_case);
    assert_at_least("an accepted trace of 4,096 steps", tally.full_traces, 10);
}

#[test]
fn refusals() {
    let Tally { listings, .. } = run(2, "refusals", 700, refused_case);
    assert_at_least("a refused trace", listings.refused, LEAST_EACH);
    for number in [25, 26, 28, 29, 30, 31, 32, 33] {
        let count = listings.refusals.of(number);
        assert_at_least(&format!("refusal {number}"), count, 3);
    }
}

#[test]
fn bytes() {
    let Tally { listings, .. } = run(3, "bytes", 250, bytes_case);
    assert_at_least("a refused folder", listings.refused, LEAST_EACH);
    assert_at_least("an accepted folder", listings.accepted, 20);
}
