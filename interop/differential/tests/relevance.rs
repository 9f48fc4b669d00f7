//! The three answers of the test of relevance, as the built case program writes them,
//! against a plain function over lists, on rows of all kinds: also such as no sheet
//! has.
//!
//! `LIROPUVA_ROUNDS=10` runs ten times as many cases; `LIROPUVA_SEED=n` runs
//! the one case with that seed.

use differential::cases;
use differential::compare::Tally;
use differential::draft::{Literal, Row};
use differential::random::Random;
use differential::relevance::{self, Relevance, Relevances, Told};
use differential::runner::{self, assert_at_least};
use reference::tag;

/// Apart from the seeds of the other tests.
const FIRST_SEED: u64 = 300 * runner::SEEDS_A_GROUP;

/// How many pairs of lists a case asks about, and how many there must be in all.
const PAIRS_A_CASE: usize = 200;
const LEAST_PAIRS: u64 = 20_000;

/// How often each thing must come that is looked for.
const LEAST_EACH: u64 = 100;

/// Atoms at the ends of bytes and words, many of them alike in their low bits.
const EDGES: [u16; 12] = [
    0, 1, 254, 255, 256, 257, 511, 512, 32_768, 65_280, 65_534, 65_535,
];

/// Tags that say nothing about effects, nor about what is wanted; the last ones only
/// in their low bits.
const SILENT: [u16; 14] = [0, 1, 2, 3, 4, 7, 11, 12, 13, 261, 262, 265, 266, 65_535];

/// The rows of an action or of a method's goal, and those of a waiting goal.
#[derive(Clone)]
struct Pair {
    acting: Vec<Row>,
    goal: Vec<Row>,
}

/// The literals that the rows of a pair are chosen from.
struct Pool {
    literals: Vec<Literal>,
    /// The goal wants the first ones of them alone.
    wanted: usize,
    /// In how many of 100 rows the sign is the other one.
    contrary: usize,
}

impl Pool {
    fn new(random: &mut Random) -> Pool {
        let atoms: Vec<u16> = match random.below(5) {
            0 => (0..random.between(1, 6) as u16).collect(),
            1 => EDGES.to_vec(),
            2 => (0..256).collect(),
            3 => (0..random.between(2, 40) as u16)
                .map(|n| n % 4 + 256 * (n / 4))
                .collect(),
            _ => (0..random.between(1, 400)).map(|_| random.word()).collect(),
        };
        let signed = atoms.into_iter().map(|atom| (atom, random.chance(50)));
        let mut literals: Vec<Literal> = signed.collect();
        for place in 0..literals.len() {
            literals.swap(place, random.below(place + 1));
        }
        Pool {
            wanted: random.between(1, literals.len()),
            literals,
            contrary: random.pick(&[0, 0, 0, 1, 10, 50]),
        }
    }

    fn literal(&self, random: &mut Random, among: usize) -> Literal {
        let (atom, sign) = self.literals[random.below(among)];
        (atom, sign != random.chance(self.contrary))
    }

    /// Any atom of the pool, as the value of a row that has none.
    fn value(&self, random: &mut Random) -> u16 {
        random.pick(&self.literals).0
    }

    /// So many literals, sometimes rising as in a sheet.
    fn literals(&self, random: &mut Random, count: usize, among: usize) -> Vec<Literal> {
        let literals = (0..count).map(|_| self.literal(random, among));
        let mut literals: Vec<Literal> = literals.collect();
        if random.chance(30) {
            literals.sort_unstable();
        }
        literals
    }

    fn silent_row(&self, random: &mut Random) -> Row {
        (random.pick(&SILENT), self.value(random))
    }

    /// Rows of an action or of a method's goal, sometimes with some of the other.
    fn acting(&self, random: &mut Random) -> Vec<Row> {
        let count = effect_count(random);
        let of_method = random.chance(30);
        let mixed = random.pick(&[0, 0, 0, 20]);
        let silent = random.pick(&[0, 0, 30]);
        let mut rows = match of_method {
            true => vec![(tag::NODE, 0), (tag::ALTERNATIVE, 0)],
            false => vec![(tag::ACTION, self.value(random))],
        };
        for literal in self.literals(random, count, self.literals.len()) {
            if random.chance(silent) {
                rows.push(self.silent_row(random));
            }
            let row = match of_method != random.chance(mixed) {
                true => wants(literal),
                false => makes(literal),
            };
            rows.push(row);
        }
        rows
    }

    /// Rows of a goal, sometimes with wanted rows before its first alternative, or
    /// with no alternative.
    fn goal(&self, random: &mut Random) -> Vec<Row> {
        let mut rows = vec![(tag::NODE, self.head_value(random))];
        for _ in 0..random.below(3) {
            rows.push((tag::AFTER, self.value(random)));
        }
        if random.chance(15) {
            let early = random.between(1, 4);
            let early = self.literals(random, early, self.literals.len());
            rows.extend(early.into_iter().map(wants));
        }
        if random.chance(95) {
            rows.push((tag::ALTERNATIVE, self.head_value(random)));
        }
        let next = random.pick(&[0, 2, 10, 50]);
        let silent = random.pick(&[0, 0, 10]);
        let count = wanted_count(random);
        for literal in self.literals(random, count, self.wanted) {
            rows.push(wants(literal));
            if random.chance(silent) {
                rows.push(self.silent_row(random));
                rows.push(makes(self.literal(random, self.literals.len())));
            }
            if random.chance(next) {
                rows.push((tag::ALTERNATIVE, self.head_value(random)));
            }
        }
        rows
    }

    /// Mostly 0, as in a sheet.
    fn head_value(&self, random: &mut Random) -> u16 {
        match random.below(4) {
            0 => self.value(random),
            _ => 0,
        }
    }
}

fn effect_count(random: &mut Random) -> usize {
    match random.below(20) {
        0 => 0,
        1..6 => 1,
        6..11 => 2,
        11..14 => 3,
        14..19 => random.between(4, 20),
        _ => random.between(200, 300),
    }
}

fn wanted_count(random: &mut Random) -> usize {
    match random.below(20) {
        0 => 0,
        1..6 => random.between(1, 5),
        6..13 => random.between(6, 40),
        13..19 => random.between(20, 250),
        _ => random.between(250, 600),
    }
}

fn makes((atom, sign): Literal) -> Row {
    let made = if sign {
        tag::MAKES_TRUE
    } else {
        tag::MAKES_FALSE
    };
    (made, atom)
}

fn wants((atom, sign): Literal) -> Row {
    let wanted = if sign {
        tag::WANTED_TRUE
    } else {
        tag::WANTED_FALSE
    };
    (wanted, atom)
}

fn pair(random: &mut Random) -> Pair {
    let pool = Pool::new(random);
    Pair {
        acting: pool.acting(random),
        goal: pool.goal(random),
    }
}

fn is_wanted(tag: u16) -> bool {
    [tag::WANTED_TRUE, tag::WANTED_FALSE].contains(&tag)
}

/// A made row becomes a wanted one.
fn want_made(row: &mut Row) {
    row.0 = match row.0 {
        tag::MAKES_TRUE => tag::WANTED_TRUE,
        tag::MAKES_FALSE => tag::WANTED_FALSE,
        other => other,
    };
}

/// The pair with its rows read wrongly. Where the answer is then another, the pair
/// tells the wrong reading from the right one.
type Misread = fn(&mut Pair);

const MISREAD: [(&str, Misread); 10] = [
    (
        "another answer if rows before the first alternative counted",
        |pair| {
            pair.goal.insert(0, (tag::ALTERNATIVE, 0));
        },
    ),
    (
        "another answer if the first alternative alone counted",
        |pair| {
            let is_head = |row: &Row| row.0 == tag::ALTERNATIVE;
            let first = pair.goal.iter().position(is_head).unwrap_or(0);
            let mut behind = pair.goal.iter().skip(first + 1);
            if let Some(rows) = behind.position(is_head) {
                pair.goal.truncate(first + 1 + rows);
            }
        },
    ),
    (
        "another answer if the values of other rows were wanted",
        |pair| {
            for row in &mut pair.goal {
                if [tag::NODE, tag::ALTERNATIVE, tag::AFTER].contains(&row.0) {
                    *row = (tag::WANTED_TRUE, row.1);
                }
            }
            pair.goal.insert(0, (tag::ALTERNATIVE, 0));
        },
    ),
    ("another answer if made rows were wanted", |pair| {
        pair.goal.iter_mut().for_each(want_made);
    }),
    ("another answer if a method's goal had made rows", |pair| {
        if pair.acting.iter().any(|row| is_wanted(row.0)) {
            pair.acting.iter_mut().for_each(want_made);
        }
    }),
    ("another answer if needs were effects", |pair| {
        for row in &mut pair.acting {
            row.0 = match row.0 {
                tag::NEEDS_TRUE => tag::MAKES_TRUE,
                tag::NEEDS_FALSE => tag::MAKES_FALSE,
                other => other,
            };
        }
    }),
    (
        "another answer if made true came before made false",
        |pair| {
            pair.acting.sort_by_key(|row| row.0);
        },
    ),
    ("another answer if the last effect were told", |pair| {
        pair.acting.reverse()
    }),
    ("another answer if an atom had 8 bits", |pair| {
        for row in pair.acting.iter_mut().chain(&mut pair.goal) {
            row.1 %= 256;
        }
    }),
    ("another answer if a tag had 8 bits", |pair| {
        for row in pair.acting.iter_mut().chain(&mut pair.goal) {
            row.0 %= 256;
        }
    }),
];

fn count(relevances: &mut Relevances, pair: &Pair, relevance: Relevance) {
    relevances.count(relevance);
    see_sizes(relevances, pair);
    see_atoms(relevances, relevance);
    see_blocked_and_helping(relevances, pair, relevance);
    for (name, misread) in MISREAD {
        let mut other = pair.clone();
        misread(&mut other);
        let otherwise = Relevance::of(&other.acting, &other.goal).to_string();
        relevances.see(name, otherwise != relevance.to_string());
    }
}

fn see_sizes(relevances: &mut Relevances, pair: &Pair) {
    let effects = relevance::effects(&pair.acting).len();
    relevances.see("no effects", effects == 0);
    relevances.see("one effect", effects == 1);
    relevances.see("two effects", effects == 2);
    relevances.see("three effects", effects == 3);
    relevances.see("256 effects or more", effects >= 256);
    let alternative = |row: &Row| row.0 == tag::ALTERNATIVE;
    relevances.see("no alternative", !pair.goal.iter().any(alternative));
    let wanted = pair.goal.iter().filter(|row| is_wanted(row.0)).count();
    relevances.see("nothing wanted", wanted == 0);
    relevances.see("250 wanted rows or more", wanted >= 250);
}

fn see_atoms(relevances: &mut Relevances, relevance: Relevance) {
    let atom = relevance.effect().map(|effect| effect.row.1);
    relevances.see("atom 0 decides", atom == Some(0));
    relevances.see("atom 255 decides", atom == Some(255));
    relevances.see("atom 256 decides", atom == Some(256));
    relevances.see("atom 65,535 decides", atom == Some(65_535));
}

/// Where an effect helps that is not told, as another one, or itself, is blocked.
fn see_blocked_and_helping(relevances: &mut Relevances, pair: &Pair, relevance: Relevance) {
    // With all wanted signs changed, the first effect that is wanted is blocked.
    let mut goal = pair.goal.clone();
    for row in &mut goal {
        row.0 = match row.0 {
            tag::WANTED_TRUE => tag::WANTED_FALSE,
            tag::WANTED_FALSE => tag::WANTED_TRUE,
            other => other,
        };
    }
    let changed = Relevance::of(&pair.acting, &goal);
    let (mut before, mut both, mut behind) = (false, false, false);
    if let (Relevance::Blocked(blocked), Relevance::Blocked(helping)) = (relevance, changed) {
        before = helping.place < blocked.place;
        both = helping.place == blocked.place;
        behind = helping.place > blocked.place;
    }
    relevances.see("blocked behind one that helps", before);
    relevances.see("blocked and helping by the same effect", both);
    relevances.see("blocked before one that helps", behind);
}

/// A row list as a sheet writes it, with a blank before each row.
fn text(rows: &[Row]) -> String {
    let rows: Vec<String> = rows
        .iter()
        .map(|row| format!(" {} {}", row.0, row.1))
        .collect();
    rows.join(",")
}

/// Many pairs, as lines of the case program.
fn pairs_case(random: &mut Random, tally: &mut Tally) {
    let pairs: Vec<Pair> = (0..PAIRS_A_CASE).map(|_| pair(random)).collect();
    let lines = pairs.iter().enumerate().map(|(number, pair)| {
        let (acting, goal) = (text(&pair.acting), text(&pair.goal));
        format!("relevance: {number};{acting} |{goal}")
    });
    let lines: Vec<String> = lines.collect();
    let answers = cases::answers(&lines);
    assert_eq!(answers.len(), lines.len(), "a line for each case");
    for (number, pair) in pairs.iter().enumerate() {
        let relevance = Relevance::of(&pair.acting, &pair.goal);
        let wanted = format!("relevance: {number}: {relevance}");
        assert_eq!(answers[number], wanted, "{}", lines[number]);
        count(&mut tally.relevances, pair, relevance);
    }
}

#[test]
fn pairs_of_lists() {
    let Tally { relevances, .. } = runner::run_cases("pairs", FIRST_SEED, 150, pairs_case);
    relevances.print();
    let pairs = Told::ALL.map(|told| relevances.told(told));
    assert_at_least("a pair of lists", pairs.iter().sum(), LEAST_PAIRS);
    assert_at_least("neither", relevances.told(Told::Neither), LEAST_EACH);
    for told in [Told::Blocked, Told::Helping] {
        for (place, count) in relevances.places(told).into_iter().enumerate() {
            assert_at_least(&format!("{told:?} at {place}"), count, LEAST_EACH);
        }
    }
    for (what, count) in relevances.seen() {
        assert_at_least(what, count, LEAST_EACH);
    }
}

/// Rows and answers that were worked out by hand.
const WORKED: [(&[Row], &[Row], &str); 7] = [
    (&[], &[], "neither"),
    (&[(5, 3), (6, 1)], &[(8, 0), (9, 0), (10, 2)], "neither"),
    (
        &[(1, 9), (3, 2), (5, 0)],
        &[(8, 0), (9, 0), (10, 2)],
        "helping 5 0",
    ),
    (
        &[(5, 0), (6, 2)],
        &[(8, 0), (9, 0), (10, 1), (9, 2)],
        "blocked 6 2",
    ),
    (
        &[(5, 0)],
        &[(7, 0), (8, 0), (9, 0), (8, 0), (10, 0)],
        "blocked 5 0",
    ),
    (
        &[(7, 0), (8, 0), (10, 1)],
        &[(8, 0), (9, 0), (8, 0), (10, 1)],
        "helping 10 1",
    ),
    (
        &[(5, 0), (5, 1)],
        &[(10, 0), (8, 0), (9, 1), (11, 0)],
        "helping 5 1",
    ),
];

#[test]
fn pairs_worked_out_by_hand() {
    let line = |(acting, goal, _): (&[Row], &[Row], &str)| {
        format!("relevance: by hand;{} |{}", text(acting), text(goal))
    };
    let answers = cases::answers(&WORKED.map(line));
    assert_eq!(answers.len(), WORKED.len(), "a line for each case");
    for ((acting, goal, wanted), answer) in WORKED.into_iter().zip(answers) {
        assert_eq!(Relevance::of(acting, goal).to_string(), wanted);
        assert_eq!(answer, format!("relevance: by hand: {wanted}"));
    }
}
