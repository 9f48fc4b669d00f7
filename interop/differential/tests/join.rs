//! Demand 3 on random pairs of orders: a trace is accepted on the join exactly
//! when there is a cut, there is never more than one, and plan, cost and state
//! are those of front and back together, and so are the lines of the listing.
//!
//! It is asked of the reference model on the join as a network, and of the proved
//! library on the sheet that its join wrote, wherever the join fits one.

use std::sync::atomic::{AtomicU64, Ordering};

use differential::compare::{self, Lent, Replayed, Tally};
use differential::draft::{Order, Shop, Step, trace_words};
use differential::generate::{self, Size};
use differential::joins::Sizes;
use differential::random::Random;
use differential::walk::{self, Habit};
use differential::{damage, runner};
use liropuva::JOIN_ROOM;
use reference::{Accepted, Atoms, Line, MAX_GOALS, MAX_STEPS, Network, Rules, Run, Trace};

const MISMATCH: &str = "accepted without a cut, or not with one";

/// Apart from the seeds of the other tests.
const FIRST_SEED: u64 = 100 * runner::SEEDS_A_GROUP;

/// Traces accepted on the join.
static ACCEPTED: AtomicU64 = AtomicU64::new(0);
/// Traces that have a cut but for the second order's goals among the 64.
static ONLY_TOO_MANY: AtomicU64 = AtomicU64::new(0);

struct Pair {
    shop_words: Vec<u16>,
    first_words: Vec<u16>,
    /// The join as the call wrote it, if it fits a sheet.
    join_words: Option<Vec<u16>>,
    second_draft: Order,
    shop: reference::Shop,
    first: Network,
    second: Network,
    join: Network,
}

impl Pair {
    fn generate(random: &mut Random, tally: &mut Tally) -> Pair {
        let (first_goals, second_goals) = goal_counts(random);
        let (shop, first, second);
        if first_goals + second_goals > 20 || random.chance(20) {
            shop = generate::easy_shop(random);
            first = generate::easy_order(random, shop.atoms, first_goals);
            second = generate::easy_order(random, shop.atoms, second_goals);
        } else {
            let size = random.pick(&[Size::Tiny, Size::Small, Size::Small, Size::Bulky]);
            shop = generate::shop(random, size);
            first = generate::order(random, shop.atoms, first_goals);
            second = generate::order(random, shop.atoms, second_goals);
        }
        Pair::new(random, tally, shop, first, second)
    }

    fn new(
        random: &mut Random,
        tally: &mut Tally,
        shop: Shop,
        first: Order,
        second: Order,
    ) -> Pair {
        let shop_words = shop.words();
        let first_words = first.words();
        let lent = Lent::new(random, JOIN_ROOM);
        let written = compare::join(tally, &lent, &shop_words, &first_words, &second.words());
        let shop = reference::Shop::read(&shop_words).expect("a well-formed shop");
        let read = |words: &[u16]| Network::read(&shop, words).expect("well-formed");
        let (first_network, second_network) = (read(&first_words), read(&second.words()));
        let join = Network::join(&first_network, &second_network);
        let written = written.sheet();
        assert!(
            written.is_none_or(|words| read(words) == join),
            "the join as a sheet is the join as a network"
        );
        assert_eq!(written.is_some(), fits(&first, &second));
        Pair {
            join_words: written.map(<[u16]>::to_vec),
            join,
            first: first_network,
            second: second_network,
            first_words,
            second_draft: second,
            shop_words,
            shop,
        }
    }

    /// The rules of the front: the second order's goals count among the 64.
    fn front_rules(&self) -> Rules {
        Rules {
            most_waiting: MAX_GOALS - self.second.nodes.len(),
        }
    }

    fn run_join(&self, trace: Trace<'_>) -> Option<Accepted> {
        reference::run(Rules::CALLS, &self.shop, &self.join, self.join.start, trace).ok()
    }

    fn run_front(&self, trace: Trace<'_>, rules: Rules) -> Option<Accepted> {
        reference::run(rules, &self.shop, &self.first, self.first.start, trace).ok()
    }

    fn run_back(&self, state: Atoms, trace: Trace<'_>) -> Option<Accepted> {
        reference::run(Rules::CALLS, &self.shop, &self.second, state, trace).ok()
    }

    fn join_lines(&self, trace: Trace<'_>) -> Option<Vec<Line>> {
        reference::lines(Rules::CALLS, &self.shop, &self.join, self.join.start, trace)
    }

    /// The lines of the front, then those of the back, whose steps count from the
    /// whole trace's first.
    fn cut_lines(&self, trace: Trace<'_>, front: &Accepted) -> Option<Vec<Line>> {
        let cut = front.steps;
        let (first, second) = trace.split_at(cut);
        let (rules, start) = (self.front_rules(), self.first.start);
        let mut lines = reference::lines(rules, &self.shop, &self.first, start, first)?;
        let back = reference::lines(Rules::CALLS, &self.shop, &self.second, front.state, second)?;
        lines.extend(back.into_iter().map(|line| line.behind(cut)));
        Some(lines)
    }

    /// Front and back of every cut that will do, with these rules for the front.
    fn cuts(&self, trace: Trace<'_>, rules: Rules) -> Vec<(Accepted, Accepted)> {
        let cut_accepted = |cut| {
            let (front, back) = trace.split_at(cut);
            let front = self.run_front(front, rules)?;
            let back = self.run_back(front.state, back)?;
            Some((front, back))
        };
        (0..=trace.len()).filter_map(cut_accepted).collect()
    }
}

/// Does the join fit an order sheet?
fn fits(first: &Order, second: &Order) -> bool {
    Sizes::of(first, second).number(JOIN_ROOM) == 0
}

/// Mostly few goals; sometimes about 64 in all, or more.
fn goal_counts(random: &mut Random) -> (usize, usize) {
    match random.below(10) {
        0..6 => (random.between(0, 5), random.between(0, 5)),
        6 | 7 => {
            let second = random.between(30, 64);
            let all = random.between(second, 64);
            (all - second, second)
        }
        8 => (random.between(0, 4), random.between(58, 64)),
        _ => (random.between(20, 40), random.between(20, 40)),
    }
}

/// A walk on the join itself.
fn join_walk(random: &mut Random, pair: &Pair, most: usize) -> Option<Vec<Step>> {
    let start = pair.join.start;
    let mut run = Run::start(Rules::CALLS, &pair.shop, &pair.join, start)?;
    Some(walk::finished_walk(random, &pair.shop, &mut run, most))
}

/// A walk on the first order, with up to 64 goals waiting there, then one on
/// the second: where methods are used, this passes the join's limit.
fn split_walk(random: &mut Random, pair: &Pair, most: usize) -> Vec<Step> {
    let start = pair.first.start;
    let mut run = Run::start(Rules::CALLS, &pair.shop, &pair.first, start).expect("an order");
    let mut steps = walk::finished_walk(random, &pair.shop, &mut run, most);
    let state = *run.state();
    let mut run = Run::start(Rules::CALLS, &pair.shop, &pair.second, state).expect("an order");
    steps.extend(walk::finished_walk(random, &pair.shop, &mut run, most));
    steps
}

/// A walk on the join that fails or stops on the way.
fn broken_walk(random: &mut Random, pair: &Pair, most: usize) -> Option<Vec<Step>> {
    let start = pair.join.start;
    let mut run = Run::start(Rules::CALLS, &pair.shop, &pair.join, start)?;
    let habit = Habit::random(random);
    let most = random.between(0, most);
    let mut steps = walk::walk(random, &pair.shop, &mut run, habit, most);
    let question = random.pick(&[25, 26, 28, 29, 30, 31, 32]);
    steps.extend(walk::failing_step(random, &pair.shop, &run, question));
    steps.extend(walk::walk(random, &pair.shop, &mut run, Habit::FINISH, 20));
    Some(steps)
}

fn some_steps(random: &mut Random, pair: &Pair) -> Vec<Step> {
    let most = random.pick(&[10, 30, 100]);
    let steps = match random.below(10) {
        0..4 => join_walk(random, pair, most),
        4..7 => Some(split_walk(random, pair, most)),
        7 | 8 => broken_walk(random, pair, most),
        _ => None,
    };
    let mut steps = steps.unwrap_or_else(|| walk::random_steps(random, &pair.shop, 12));
    if random.chance(20) {
        damage::steps(random, &mut steps);
    }
    steps.truncate(usize::from(MAX_STEPS));
    steps
}

/// Demand 3 in the reference model.
fn check_reference(pair: &Pair, words: &[u16]) {
    let trace = Trace::check(words).expect("a well-formed trace");
    let joined = pair.run_join(trace);
    let cuts = pair.cuts(trace, pair.front_rules());
    assert!(cuts.len() <= 1, "two cuts");
    assert_eq!(joined.is_some(), cuts.len() == 1, "{MISMATCH}");
    let Some((joined, (front, back))) = joined.zip(cuts.first()) else {
        if !pair.cuts(trace, Rules::CALLS).is_empty() {
            ONLY_TOO_MANY.fetch_add(1, Ordering::Relaxed);
        }
        return;
    };
    assert_eq!(joined.plan_count, front.plan_count + back.plan_count);
    assert_eq!(joined.cost, front.cost + back.cost);
    assert_eq!(joined.state, back.state);
    assert_eq!(pair.join_lines(trace), pair.cut_lines(trace, front));
    ACCEPTED.fetch_add(1, Ordering::Relaxed);
}

struct Asked<'a> {
    pair: &'a Pair,
    random: &'a mut Random,
    tally: &'a mut Tally,
}

impl Asked<'_> {
    fn replay(&mut self, order: &[u16], steps: &[Step]) -> Replayed {
        let trace = trace_words(steps);
        let shop = &self.pair.shop_words;
        compare::replay(self.tally, self.random, shop, order, &trace, steps.len())
    }

    /// Front and back of this cut, if the proved library accepts both and the
    /// front keeps to its limit.
    fn cut(&mut self, steps: &[Step], cut: usize) -> Option<(Replayed, Replayed)> {
        let (front, back) = steps.split_at(cut);
        let front_trace = trace_words(front);
        let replayed = self.replay(&self.pair.first_words, front);
        let trace = Trace::check(&front_trace).expect("a well-formed trace");
        let within = self
            .pair
            .run_front(trace, self.pair.front_rules())
            .is_some();
        if !replayed.accepted() || !within {
            return None;
        }
        let second = self.pair.second_draft.from_state(&replayed.state).words();
        let back = self.replay(&second, back);
        back.accepted().then_some((replayed, back))
    }
}

/// Demand 3 asked of the proved library.
fn check_proved(asked: &mut Asked<'_>, join: &[u16], steps: &[Step]) {
    let joined = asked.replay(join, steps);
    let mut accepted = Vec::new();
    for cut in 0..=steps.len() {
        accepted.extend(asked.cut(steps, cut));
    }
    assert!(accepted.len() <= 1, "two cuts");
    assert_eq!(joined.accepted(), accepted.len() == 1, "{MISMATCH}");
    for (front, back) in accepted {
        assert_eq!(joined.plan, [front.plan, back.plan].concat());
        assert_eq!(joined.answer.cost, front.answer.cost + back.answer.cost);
        assert_eq!(joined.state, back.state);
        assert_eq!(joined.answer.state, back.answer.state);
    }
}

fn join_case(random: &mut Random, tally: &mut Tally) {
    let pair = Pair::generate(random, tally);
    for _ in 0..8 {
        let steps = some_steps(random, &pair);
        check(&pair, random, tally, &steps);
    }
}

/// A trace of many hundred steps.
fn long_join_case(random: &mut Random, tally: &mut Tally) {
    let shop = generate::easy_shop(random);
    let goals = [random.between(0, 20), random.between(0, 50)];
    let [first, second] = goals.map(|goals| generate::easy_order(random, shop.atoms, goals));
    let pair = Pair::new(random, tally, shop, first, second);
    let mut steps = split_walk(random, &pair, 700);
    if random.chance(30) {
        damage::steps(random, &mut steps);
    }
    check(&pair, random, tally, &steps);
}

fn check(pair: &Pair, random: &mut Random, tally: &mut Tally, steps: &[Step]) {
    check_reference(pair, &trace_words(steps));
    if let Some(join) = &pair.join_words {
        let mut asked = Asked {
            pair,
            random,
            tally,
        };
        check_proved(&mut asked, join, steps);
    }
}

#[test]
fn a_trace_is_accepted_on_the_join_exactly_when_there_is_a_cut() {
    let mut tally = runner::run_cases("join", FIRST_SEED, 1_000, join_case);
    let first_seed = FIRST_SEED + runner::SEEDS_A_GROUP;
    tally.add(&runner::run_cases(
        "long join",
        first_seed,
        20,
        long_join_case,
    ));
    tally.print();
    tally.joins.print();
    let accepted = ACCEPTED.load(Ordering::Relaxed);
    let only_too_many = ONLY_TOO_MANY.load(Ordering::Relaxed);
    println!("accepted on the join: {accepted}; only too many waiting: {only_too_many}");
    if !runner::single_seed() {
        assert!(accepted >= 1_000 && only_too_many >= 100);
    }
}
