//! Runs seeded cases on all cores and names the seed of one that fails.

use std::thread;

use crate::compare::Tally;
use crate::random::Random;

const ROUNDS_VARIABLE: &str = "LIROPUVA_ROUNDS";
const SEED_VARIABLE: &str = "LIROPUVA_SEED";

/// The first seeds of two groups of cases are this far apart.
pub const SEEDS_A_GROUP: u64 = 1_000_000_000;

fn variable(name: &str) -> Option<u64> {
    let value = std::env::var(name).ok()?;
    let number = value.parse();
    Some(number.unwrap_or_else(|_| panic!("{name} must be a number, but is {value}")))
}

/// How many times over the cases are run.
pub fn rounds() -> u64 {
    variable(ROUNDS_VARIABLE).unwrap_or(1)
}

/// Prints the seed when its case panics.
struct NameSeed<'a> {
    name: &'a str,
    seed: u64,
}

impl Drop for NameSeed<'_> {
    fn drop(&mut self) {
        if thread::panicking() {
            eprintln!(
                "{}: the case with seed {} failed; {SEED_VARIABLE}={} runs it alone",
                self.name, self.seed, self.seed
            );
        }
    }
}

/// Runs `case` with the seeds from `first_seed` on, `cases` of them a round.
pub fn run_cases(
    name: &str,
    first_seed: u64,
    cases: u64,
    case: fn(&mut Random, &mut Tally),
) -> Tally {
    let group = first_seed..first_seed + SEEDS_A_GROUP;
    let (first_seed, cases) = match variable(SEED_VARIABLE) {
        Some(seed) => (seed, u64::from(group.contains(&seed))),
        None => (first_seed, cases * rounds()),
    };
    let threads = thread::available_parallelism().map_or(2, |n| n.get() as u64);
    let work = |thread: u64| {
        let mut tally = Tally::default();
        for number in (thread..cases).step_by(threads as usize) {
            let seed = first_seed + number;
            let _name_seed = NameSeed { name, seed };
            case(&mut Random::new(seed), &mut tally);
        }
        tally
    };
    let mut tally = Tally::default();
    thread::scope(|scope| {
        let workers: Vec<_> = (0..threads)
            .map(|thread| scope.spawn(move || work(thread)))
            .collect();
        for worker in workers {
            let done = worker.join();
            tally.add(&done.expect("a case failed; its seed is named above"));
        }
    });
    tally
}

/// Was a single seed asked for? Then counts say nothing.
pub fn single_seed() -> bool {
    variable(SEED_VARIABLE).is_some()
}

/// Fails where something came too seldom, unless a single seed was asked for.
pub fn assert_at_least(what: &str, count: u64, least: u64) {
    assert!(
        single_seed() || count >= least,
        "{what} came {count} times only"
    );
}
