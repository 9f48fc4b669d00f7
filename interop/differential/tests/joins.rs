//! The join of two orders as a sheet: the proved library against the reference
//! model and against the drafts, on pairs and threes of generated orders.
//!
//! `LIROPUVA_ROUNDS=10` runs ten times as many cases; `LIROPUVA_SEED=n` runs
//! the one case with that seed.

use differential::compare::{self, Joined, Lent, Tally};
use differential::draft::{Node, Order, Shop};
use differential::generate::{self, Size};
use differential::joins::{Edge, Sizes};
use differential::random::Random;
use differential::runner::assert_at_least;
use differential::{damage, runner};
use liropuva::{JOIN_ROOM, QUESTIONS, Subject};
use reference::{MAX_ATOMS, MAX_GOALS, MAX_ROWS};

/// Apart from the seeds of the other tests.
const FIRST_SEED: u64 = 110 * runner::SEEDS_A_GROUP;
const DAMAGE_SEED: u64 = FIRST_SEED + runner::SEEDS_A_GROUP;
const GROUPINGS_SEED: u64 = DAMAGE_SEED + runner::SEEDS_A_GROUP;

/// How often the tests answer each number, and meet each limit, that they must.
const LEAST_EACH: u64 = 100;

const MOST_ROWS: usize = MAX_ROWS as usize;

/// A shop without actions and methods: a join reads no more of it than its F.
fn bare_shop(random: &mut Random) -> Shop {
    Shop {
        atoms: random.pick(&[1, 2, 5, 30, 100, MAX_ATOMS]),
        actions: Vec::new(),
        methods: Vec::new(),
    }
}

/// Mostly bare, so that the check of the shop does not take the time.
fn shop(random: &mut Random) -> Shop {
    match random.below(20) {
        0 => generate::shop(random, Size::Small),
        1 => generate::shop(random, Size::Medium),
        _ => bare_shop(random),
    }
}

/// An order whose goals come after few, many or all of those before them.
fn order(random: &mut Random, atoms: u16, goals: usize) -> Order {
    let mut order = generate::order(random, atoms, goals);
    let percent = random.pick(&[0, 5, 50, 95, 100]);
    for (number, goal) in order.goals.iter_mut().enumerate() {
        let lower = 0..number as u16;
        goal.after = lower.filter(|_| random.chance(percent)).collect();
    }
    if random.chance(20) {
        order.start = (0..atoms).collect();
    }
    order
}

/// The goals of two orders: few, any number, or about 64 together.
fn two_goal_counts(random: &mut Random) -> [usize; 2] {
    match random.below(8) {
        0..3 => [random.between(0, 5), random.between(0, 5)],
        3 => [random.between(0, MAX_GOALS), random.between(0, MAX_GOALS)],
        4 => random.pick(&[[0, 0], [0, 64], [64, 0], [32, 32], [1, 64], [64, 1]]),
        _ => {
            let all = random.between(MAX_GOALS - 2, MAX_GOALS + 2);
            let first = random.between(all.saturating_sub(MAX_GOALS), all.min(MAX_GOALS));
            [first, all - first]
        }
    }
}

/// Gives an order so many more rows, if it has a goal and they fit.
fn pad(random: &mut Random, order: &mut Order, more: usize) {
    let rows = order.sheet().rows.len() + more;
    generate::pad_order(random, order, rows.min(MOST_ROWS));
}

/// A part of a number: none, all, or something between.
fn share(random: &mut Random, of: usize) -> usize {
    let between = random.between(0, of);
    random.pick(&[0, of, between])
}

/// About as many rows as there may be, mostly.
fn near_most_rows(random: &mut Random) -> usize {
    match random.below(6) {
        0 => random.between(MOST_ROWS / 2, MOST_ROWS + 1_000),
        1 => MOST_ROWS - 1,
        2 | 3 => MOST_ROWS,
        4 => MOST_ROWS + 1,
        _ => MOST_ROWS + 2,
    }
}

/// A shop and two orders that pass.
struct Pair {
    shop: Shop,
    first: Order,
    second: Order,
}

impl Pair {
    fn generate(random: &mut Random) -> Pair {
        let shop = shop(random);
        let goals = two_goal_counts(random);
        let [mut first, mut second] = goals.map(|goals| order(random, shop.atoms, goals));
        if random.chance(40) {
            let rows = near_most_rows(random);
            let missing = rows.saturating_sub(Sizes::of(&first, &second).rows);
            let in_first = share(random, missing);
            pad(random, &mut first, in_first);
            pad(random, &mut second, missing - in_first);
        }
        Pair {
            shop,
            first,
            second,
        }
    }

    fn small(random: &mut Random) -> Pair {
        let shop = shop(random);
        let [first, second] = [(); 2].map(|()| {
            let goals = random.between(0, 5);
            order(random, shop.atoms, goals)
        });
        Pair {
            shop,
            first,
            second,
        }
    }
}

/// Mostly enough room for so many words, sometimes more, sometimes too little.
fn room(random: &mut Random, words: usize) -> usize {
    match random.below(10) {
        0 | 1 => words - 1,
        2 => random.pick(&[0, 1, 2, 3]),
        3 => random.below(words),
        4 => words + random.below(9),
        5 => JOIN_ROOM,
        _ => words,
    }
}

/// A join of well-formed orders answers and writes what the drafts say.
fn check_pair(random: &mut Random, tally: &mut Tally, shop: &[u16], first: &Order, second: &Order) {
    let sizes = Sizes::of(first, second);
    let room = room(random, sizes.words());
    let lent = Lent::new(random, room);
    let (first_words, second_words) = (first.words(), second.words());
    let joined = compare::join(tally, &lent, shop, &first_words, &second_words);
    let answer = joined.answer;
    assert_eq!((answer.number, answer.place), (sizes.number(room), 0));
    if let Some(words) = joined.sheet() {
        assert!(words == first.join(second).words(), "not the draft's join");
    }
    tally.joins.count_edges(&sizes, room, answer.number);
}

/// Two orders, either one first, and one of them with itself.
fn pair_case(random: &mut Random, tally: &mut Tally) {
    let Pair {
        shop,
        first,
        second,
    } = Pair::generate(random);
    let shop = shop.words();
    check_pair(random, tally, &shop, &first, &second);
    check_pair(random, tally, &shop, &second, &first);
    let words = first.words();
    let lent = Lent::new(random, JOIN_ROOM);
    let joined = compare::join(tally, &lent, &shop, &words, &words);
    let expected = Sizes::of(&first, &first).number(JOIN_ROOM);
    assert_eq!(joined.answer.number, expected, "an order with itself");
}

/// One sheet of three, or two orders, with something wrong.
fn damage_case(random: &mut Random, tally: &mut Tally) {
    let pair = match random.below(10) {
        0 => Pair::generate(random),
        _ => Pair::small(random),
    };
    for _ in 0..8 {
        let mut sheets = [pair.shop.sheet(), pair.first.sheet(), pair.second.sheet()];
        let damaged: &[usize] = random.pick(&[&[0], &[1], &[2], &[2], &[2], &[1, 2]]);
        let in_rows = random.chance(60);
        for &sheet in damaged.iter().filter(|_| in_rows) {
            damage::rows(random, &mut sheets[sheet]);
        }
        let mut words = sheets.map(|sheet| sheet.words());
        for &sheet in damaged.iter().filter(|_| !in_rows) {
            damage::words(random, &mut words[sheet]);
        }
        let [shop, first, second] = words;
        let room = random.pick(&[0, 3, 40, JOIN_ROOM]);
        let lent = Lent::new(random, room);
        compare::join(tally, &lent, &shop, &first, &second);
    }
}

/// Three orders; often about 64 goals or 4,000 rows come out of all.
fn three_orders(random: &mut Random, atoms: u16) -> [Order; 3] {
    let goals = match random.below(4) {
        0 | 1 => [(); 3].map(|()| random.between(0, 5)),
        2 => [(); 3].map(|()| random.between(0, 34)),
        _ => {
            let all = random.between(MAX_GOALS - 1, MAX_GOALS + 1);
            let first = random.between(0, all - 1);
            let second = random.between(0, all - 1 - first);
            [first, second, all - first - second]
        }
    };
    let mut orders = goals.map(|goals| order(random, atoms, goals));
    if random.chance(60) {
        let [a, b, c] = &orders;
        let rows = near_most_rows(random);
        let missing = rows.saturating_sub(Sizes::of(&a.join(b), c).rows);
        let outer = share(random, missing);
        let in_first = share(random, outer);
        for (order, more) in orders
            .iter_mut()
            .zip([in_first, missing - outer, outer - in_first])
        {
            pad(random, order, more);
        }
    }
    orders
}

/// Both groupings of three orders leave the same, wherever the inner joins of
/// both are written.
fn grouping_case(random: &mut Random, tally: &mut Tally) {
    let shop = bare_shop(random);
    let orders = three_orders(random, shop.atoms);
    let all = Sizes::of(&orders[0].join(&orders[1]), &orders[2]);
    let shop = shop.words();
    let [a, b, c] = orders.each_ref().map(Order::words);
    let inner = Lent::new(random, JOIN_ROOM);
    let a_with_b = compare::join(tally, &inner, &shop, &a, &b);
    let b_with_c = compare::join(tally, &inner, &shop, &b, &c);
    let room = room(random, all.words());
    let lent = Lent::new(random, room);
    let mut outer = |first: &[u16], second: &[u16]| -> Joined {
        compare::join(tally, &lent, &shop, first, second)
    };
    let left = a_with_b.sheet().map(|joined| outer(joined, &c));
    let right = b_with_c.sheet().map(|joined| outer(&a, joined));
    let counts = match (&left, &right) {
        (Some(left), Some(right)) => {
            assert!(
                left == right,
                "the two groupings differ:\n{left:?}\n{right:?}"
            );
            &mut tally.joins.groupings
        }
        _ => &mut tally.joins.lone_groupings,
    };
    if let Some(outer) = left.or(right) {
        assert_eq!(outer.answer.number, all.number(room), "of all three");
        counts.count(outer.answer.number, 1);
    }
}

/// Runs cases of joins. Fails where a join told a number that it does not ask.
fn run(name: &str, first_seed: u64, cases: u64, case: fn(&mut Random, &mut Tally)) -> Tally {
    let start = std::time::Instant::now();
    let tally = runner::run_cases(name, first_seed, cases, case);
    println!("{name}: {cases} cases a round, {:.1?}", start.elapsed());
    tally.joins.print();
    let asked = [Subject::Shop, Subject::Order, Subject::Join];
    tally.joins.answers.assert_asked(&asked);
    tally
}

#[test]
fn pairs() {
    let joins = run("pairs", FIRST_SEED, 6_000, pair_case).joins;
    assert_at_least("a joined sheet", joins.answers.of(0), 5_000);
    for question in QUESTIONS {
        if question.subject == Subject::Join {
            let count = joins.answers.of(question.number);
            assert_at_least(&format!("{question:?}"), count, LEAST_EACH);
        }
    }
    for edge in Edge::ALL {
        assert_at_least(&format!("{edge:?}"), joins.at(edge), LEAST_EACH);
    }
}

#[test]
fn damage() {
    let joins = run("damage", DAMAGE_SEED, 4_000, damage_case).joins;
    for question in QUESTIONS {
        if question.subject == Subject::Order {
            let what = format!("{question:?} of the second order");
            let count = joins.second_refused.of(question.number);
            assert_at_least(&what, count, LEAST_EACH);
        }
    }
}

#[test]
fn groupings() {
    let joins = run("groupings", GROUPINGS_SEED, 6_000, grouping_case).joins;
    assert_at_least("three orders joined", joins.groupings.of(0), 1_000);
    for number in [81, 82, 83] {
        let count = joins.groupings.of(number);
        assert_at_least(&format!("{number} of three orders"), count, LEAST_EACH);
    }
    let lone = joins.lone_groupings.of(0);
    assert_at_least("three orders joined in one grouping alone", lone, 10);
}

/// One goal of so many alternatives without rows, which are always true.
fn always_true(atoms: u16, start: u16, alternatives: usize) -> Order {
    let goal = Node {
        after: Vec::new(),
        alternatives: vec![Vec::new(); alternatives],
    };
    Order {
        atoms,
        start: (0..start).collect(),
        goals: vec![goal],
    }
}

/// The start rows of the middle order stand in the one inner join, and in none of
/// the other grouping's.
#[test]
fn only_one_inner_join_is_refused() {
    let (mut tally, mut random) = (Tally::default(), Random::new(1));
    let shop = [MAX_ATOMS, 0, 0, 0];
    let orders = [(0, 1), (256, 3_700), (0, 100)]
        .map(|(start, alternatives)| always_true(MAX_ATOMS, start, alternatives));
    let [a, b, c] = orders.each_ref().map(Order::words);
    let lent = Lent::new(&mut random, JOIN_ROOM);
    let mut join =
        |first: &[u16], second: &[u16]| compare::join(&mut tally, &lent, &shop, first, second);
    let a_with_b = join(&a, &b);
    let a_with_b = a_with_b.sheet().expect("a with b is written");
    assert_eq!(a_with_b[..3], [256, 2, 3_704]);
    let all = join(a_with_b, &c);
    let all = all.sheet().expect("that with c is written");
    assert_eq!(all[..3], [256, 3, 3_807]);
    let [a_draft, b_draft, c_draft] = &orders;
    assert!(all == a_draft.join(b_draft).join(c_draft).words());
    let refused = join(&b, &c).answer;
    assert_eq!((refused.number, refused.place), (82, 0));
}

/// The safe wrapper gives the words that were written, and the refusal.
#[test]
fn the_wrapper_gives_the_written_sheet() {
    let shop = [MAX_ATOMS, 0, 0, 0];
    let [first, second] = [3, 2].map(|alternatives| always_true(MAX_ATOMS, 9, alternatives));
    let mut room = [0; JOIN_ROOM];
    let joined = liropuva::join(&shop, &first.words(), &second.words(), &mut room);
    let joined = joined.expect("written");
    // Nine start rows, a goal of four rows, and one of three with an 11 row.
    assert_eq!(joined.rows, 17);
    assert!(joined.sheet(&room) == first.join(&second).words());
    let short = &mut room[..3 + 2 * 17 - 1];
    let refused = liropuva::join(&shop, &first.words(), &second.words(), short);
    assert_eq!(refused.map_err(|r| (r.number, r.place)), Err((83, 0)));
}
