//! One input asked of both sides, and every word of the answers compared.

use std::collections::BTreeMap;

use liropuva::{Answer, NO_ATOM, QUESTIONS, ReplayAnswer, Subject};
use reference::{Atoms, Budget, Refusal, Stopped};

use crate::irrelevant::{self, Irrelevant};
use crate::joins::Joins;
use crate::listings::Listings;
use crate::random::Random;
use crate::relevance::Relevances;
use crate::unmet::Unmet;

/// The question that no input fails: the goal at place 0 is always free.
pub const NEVER_TOLD: u32 = 27;

/// Words around a lent room that no call may touch.
const MARGIN: usize = 8;

/// A lent room in the middle of a larger part of memory.
#[derive(Clone, PartialEq, Eq, Debug)]
pub struct Lent {
    words: Vec<u16>,
}

impl Lent {
    pub fn new(random: &mut Random, room: usize) -> Lent {
        Lent {
            words: (0..room + 2 * MARGIN).map(|_| random.word()).collect(),
        }
    }

    fn room(&mut self) -> &mut [u16] {
        let end = self.words.len() - MARGIN;
        &mut self.words[MARGIN..end]
    }

    /// The first words of the room.
    fn first(&self, words: usize) -> &[u16] {
        &self.words[MARGIN..MARGIN + words]
    }

    /// Is all the same but the first `written` words of the room?
    fn same_beyond(&self, before: &Lent, written: usize) -> bool {
        self.words[..MARGIN] == before.words[..MARGIN]
            && self.words[MARGIN + written..] == before.words[MARGIN + written..]
    }
}

/// How often each number was answered.
#[derive(Clone, Debug, Default)]
pub struct Counts(BTreeMap<u32, u64>);

impl Counts {
    pub fn of(&self, number: u32) -> u64 {
        self.0.get(&number).copied().unwrap_or(0)
    }

    /// The numbers that were answered at all.
    pub fn numbers(&self) -> impl Iterator<Item = u32> {
        self.0.keys().copied()
    }

    /// All numbers told but 0 are of questions about these subjects.
    pub fn assert_asked(&self, subjects: &[Subject]) {
        for number in self.numbers().filter(|&number| number != 0) {
            let question = QUESTIONS.iter().find(|asked| asked.number == number);
            let asked = question.is_some_and(|asked| subjects.contains(&asked.subject));
            assert!(asked && number != NEVER_TOLD, "{number} was told");
        }
    }

    pub fn count(&mut self, number: u32, times: u64) {
        *self.0.entry(number).or_default() += times;
    }

    pub(crate) fn add(&mut self, other: &Counts) {
        for (&number, &times) in &other.0 {
            self.count(number, times);
        }
    }

    pub fn total(&self) -> u64 {
        self.0.values().sum()
    }
}

/// What the compared calls answered.
#[derive(Clone, Debug, Default)]
pub struct Tally {
    pub replays: Counts,
    /// The replays that named an atom.
    pub unmet: Unmet,
    /// The replays that were refused with 31.
    pub irrelevant: Irrelevant,
    pub searches: Counts,
    pub checks: Counts,
    pub joins: Joins,
    pub listings: Listings,
    pub relevances: Relevances,
    /// How often a search found a trace of so many steps.
    pub found_steps: Counts,
    /// How often a trace of 4,096 steps was accepted.
    pub full_traces: u64,
}

impl Tally {
    pub fn add(&mut self, other: &Tally) {
        self.replays.add(&other.replays);
        self.unmet.add(&other.unmet);
        self.irrelevant.add(&other.irrelevant);
        self.searches.add(&other.searches);
        self.checks.add(&other.checks);
        self.joins.add(&other.joins);
        self.listings.add(&other.listings);
        self.relevances.add(&other.relevances);
        self.found_steps.add(&other.found_steps);
        self.full_traces += other.full_traces;
    }

    pub fn print(&self) {
        let calls = [&self.replays, &self.searches, &self.checks];
        let mut all = Counts::default();
        for counts in calls {
            all.add(counts);
        }
        println!("number    replays   searches     checks");
        for number in all.numbers() {
            let [replays, searches, checks] = calls.map(|counts| counts.of(number));
            println!("{number:>6} {replays:>10} {searches:>10} {checks:>10}");
        }
        let [replays, searches, checks] = calls.map(Counts::total);
        println!(" total {replays:>10} {searches:>10} {checks:>10}");
        self.unmet.print();
        self.irrelevant.print();
        println!(
            "steps of the traces found, and how often: {:?}",
            self.found_steps.0
        );
        println!("accepted traces of 4,096 steps: {}", self.full_traces);
    }
}

fn answer(result: Result<usize, Refusal>) -> Answer {
    let (number, place) = match result {
        Ok(place) => (0, place),
        Err(refusal) => (refusal.number, refusal.place),
    };
    Answer {
        number: u32::from(number),
        place: place as u32,
    }
}

/// Compares both sides on the check of all sheets lent.
pub fn checks(tally: &mut Tally, shop: &[u16], order: &[u16], trace: &[u16]) {
    let pairs = [
        (
            liropuva::check_shop_answer(shop),
            reference::check_shop(shop).map(|()| 0),
        ),
        (
            liropuva::check_order_answer(shop, order),
            reference::check_order(shop, order).map(|()| 0),
        ),
        (
            liropuva::check_trace_answer(shop, order, trace),
            reference::check_trace(shop, order, trace).map(|()| 0),
        ),
    ];
    for (proved, reference) in pairs {
        assert_eq!(
            proved,
            answer(reference),
            "check: proved (left), reference (right)\nshop {shop:?}\norder {order:?}\ntrace {trace:?}"
        );
        tally.checks.count(proved.number, 1);
    }
}

/// The numbers of a replay's answer: number, place, plan count, cost and atom.
pub fn words(answer: &ReplayAnswer) -> [u32; 5] {
    [
        answer.number,
        answer.place,
        answer.plan_count,
        answer.cost,
        answer.atom,
    ]
}

/// What a replay gave: the answer and, when accepted, the plan.
pub struct Replayed {
    pub answer: ReplayAnswer,
    pub state: Atoms,
    pub plan: Vec<u16>,
}

impl Replayed {
    pub fn accepted(&self) -> bool {
        self.answer.number == 0
    }
}

/// Compares both sides on a replay with a plan room of `room` words.
pub fn replay(
    tally: &mut Tally,
    random: &mut Random,
    shop: &[u16],
    order: &[u16],
    trace: &[u16],
    room: usize,
) -> Replayed {
    let before = Lent::new(random, room);
    let mut proved_lent = before.clone();
    let mut reference_lent = before.clone();
    let proved = liropuva::replay_answer(shop, order, trace, proved_lent.room());
    let reference = reference::replay(shop, order, trace, reference_lent.room());

    let input = || format!("shop {shop:?}\norder {order:?}\ntrace {trace:?}\nplan room {room}");
    let (expected, state) = match reference {
        Ok(a) => {
            let (steps, plan_count) = (a.steps as u32, a.plan_count as u32);
            ([0, steps, plan_count, a.cost, NO_ATOM], a.state)
        }
        Err(r) => {
            let atom = r.unmet.map_or(NO_ATOM, u32::from);
            (
                [u32::from(r.number), r.place as u32, 0, 0, atom],
                Atoms::EMPTY,
            )
        }
    };
    assert_eq!(
        words(&proved),
        expected,
        "replay: number, place, plan count, cost, atom: proved (left), reference (right)\n{}",
        input()
    );
    let proved_state: Atoms = proved.state.iter().collect();
    assert_eq!(
        proved_state,
        state,
        "replay: state: proved (left), reference (right)\n{}",
        input()
    );
    assert!(
        proved_lent == reference_lent,
        "replay: room: proved {proved_lent:?}\nreference {reference_lent:?}\n{}",
        input()
    );
    let written = proved.plan_count as usize;
    assert!(
        proved_lent.same_beyond(&before, written),
        "replay: words beyond the plan were written\n{}",
        input()
    );
    tally.replays.count(proved.number, 1);
    if proved.atom != NO_ATOM {
        tally.unmet.count(&proved, shop, order, trace);
    }
    if proved.number == irrelevant::NUMBER {
        tally.irrelevant.count(&proved, shop, order, trace);
    }
    if proved.number == 0 && proved.place == u32::from(reference::MAX_STEPS) {
        tally.full_traces += 1;
    }
    Replayed {
        plan: proved_lent.room()[..written].to_vec(),
        answer: proved,
        state,
    }
}

/// Compares both sides on a search. Not asked of the proved side, and `None`,
/// when the reference search does not end within `budget` steps tried.
pub fn search(
    tally: &mut Tally,
    random: &mut Random,
    (shop, order): (&[u16], &[u16]),
    depth: u32,
    room: usize,
    budget: u64,
) -> Option<Answer> {
    let before = Lent::new(random, room);
    let mut reference_lent = before.clone();
    let budget = Budget::steps(budget);
    let reference = reference::search_within(shop, order, depth, reference_lent.room(), budget);
    let reference = match reference {
        Ok(steps) => Ok(steps),
        Err(Stopped::Refused(refusal)) => Err(refusal),
        Err(Stopped::BudgetSpent) => return None,
    };
    let mut proved_lent = before.clone();
    let proved = liropuva::search_answer(shop, order, depth, proved_lent.room());

    let input = || format!("shop {shop:?}\norder {order:?}\ndepth {depth}\nroom {room}");
    assert_eq!(
        proved,
        answer(reference),
        "search: proved (left), reference (right)\n{}",
        input()
    );
    assert!(
        proved_lent == reference_lent,
        "search: room: proved {proved_lent:?}\nreference {reference_lent:?}\n{}",
        input()
    );
    let written = match proved.number {
        0 => {
            tally.found_steps.count(proved.place, 1);
            1 + 2 * proved.place as usize
        }
        _ => 0,
    };
    assert!(
        proved_lent.same_beyond(&before, written),
        "search: words beyond the trace were written\n{}",
        input()
    );
    tally.searches.count(proved.number, 1);
    Some(proved)
}

/// What a join left: the answer, and the lent room with the words around it.
#[derive(Clone, PartialEq, Eq, Debug)]
pub struct Joined {
    pub answer: Answer,
    lent: Lent,
    words: usize,
}

impl Joined {
    /// The joined sheet, if it was written.
    pub fn sheet(&self) -> Option<&[u16]> {
        let written = self.answer.number == 0;
        written.then(|| self.lent.first(self.words))
    }
}

/// Compares both sides on the join of two orders in this room.
pub fn join(
    tally: &mut Tally,
    before: &Lent,
    shop: &[u16],
    first: &[u16],
    second: &[u16],
) -> Joined {
    let mut proved_lent = before.clone();
    let mut reference_lent = before.clone();
    let proved = liropuva::join_answer(shop, first, second, proved_lent.room());
    let reference = reference::join(shop, first, second, reference_lent.room());

    let input = || format!("shop {shop:?}\nfirst {first:?}\nsecond {second:?}\nroom {before:?}");
    assert_eq!(
        proved,
        answer(reference.map(|_| 0)),
        "join: proved (left), reference (right)\n{}",
        input()
    );
    assert!(
        proved_lent == reference_lent,
        "join: room: proved {proved_lent:?}\nreference {reference_lent:?}\n{}",
        input()
    );
    let words = reference.unwrap_or(0);
    assert!(
        proved_lent.same_beyond(before, words),
        "join: words beyond the joined sheet were written\n{}",
        input()
    );
    let first_passes = reference::check_order(shop, first).is_ok();
    tally.joins.count(proved.number, first_passes);
    Joined {
        answer: proved,
        lent: proved_lent,
        words,
    }
}
