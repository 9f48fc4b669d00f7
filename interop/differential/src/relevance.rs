//! Whether an action or a method is relevant to a goal, as one of three answers, by a
//! plain function over lists of rows, which may be such as no sheet has. `reference`
//! says yes or no, by sets of atoms that know no order of rows, and shares nothing
//! with it.

use std::collections::BTreeMap;
use std::fmt;

use reference::tag;

use crate::draft::{Literal, Row};

/// The effect that decided.
#[derive(Clone, Copy, Debug, PartialEq, Eq)]
pub struct Effect {
    /// How many effects are listed before it.
    pub place: usize,
    pub row: Row,
}

/// What an action or a method is to a goal.
#[derive(Clone, Copy, Debug, PartialEq, Eq)]
pub enum Relevance {
    /// By the first effect whose opposite is wanted.
    Blocked(Effect),
    /// The opposite of none is wanted; by the first effect that is wanted itself.
    Helping(Effect),
    Neither,
}

/// Which of the three it is.
#[derive(Clone, Copy, Debug, PartialEq, Eq, PartialOrd, Ord)]
pub enum Told {
    Blocked,
    Helping,
    Neither,
}

impl Told {
    pub const ALL: [Told; 3] = [Told::Blocked, Told::Helping, Told::Neither];
}

impl Relevance {
    /// What the rows of an action, or of a method's goal, are to those of a goal.
    pub fn of(acting: &[Row], goal: &[Row]) -> Relevance {
        let effects = effects(acting);
        let wanted = wanted(goal);
        let first = |opposite: bool| {
            let meets = |&row: &Row| wanted.contains(&(row.1, sign(row) != opposite));
            let place = effects.iter().position(meets)?;
            let row = effects[place];
            Some(Effect { place, row })
        };
        if let Some(effect) = first(true) {
            return Relevance::Blocked(effect);
        }
        first(false).map_or(Relevance::Neither, Relevance::Helping)
    }

    pub fn told(self) -> Told {
        match self {
            Relevance::Blocked(_) => Told::Blocked,
            Relevance::Helping(_) => Told::Helping,
            Relevance::Neither => Told::Neither,
        }
    }

    pub fn effect(self) -> Option<Effect> {
        match self {
            Relevance::Blocked(effect) | Relevance::Helping(effect) => Some(effect),
            Relevance::Neither => None,
        }
    }
}

/// As the case program writes it: the effect by its tag and value.
impl fmt::Display for Relevance {
    fn fmt(&self, f: &mut fmt::Formatter<'_>) -> fmt::Result {
        match self {
            Relevance::Blocked(effect) => write!(f, "blocked {} {}", effect.row.0, effect.row.1),
            Relevance::Helping(effect) => write!(f, "helping {} {}", effect.row.0, effect.row.1),
            Relevance::Neither => write!(f, "neither"),
        }
    }
}

fn is_made((tag, _): Row) -> bool {
    matches!(tag, tag::MAKES_TRUE | tag::MAKES_FALSE)
}

fn is_wanted((tag, _): Row) -> bool {
    matches!(tag, tag::WANTED_TRUE | tag::WANTED_FALSE)
}

/// Is the atom of a made or wanted row to be true?
fn sign((tag, _): Row) -> bool {
    matches!(tag, tag::MAKES_TRUE | tag::WANTED_TRUE)
}

/// What an action makes. Where rows are wanted they are those of a method's goal,
/// and are its effects.
pub fn effects(acting: &[Row]) -> Vec<Row> {
    let of_method = acting.iter().any(|&row| is_wanted(row));
    let is_effect = if of_method { is_wanted } else { is_made };
    let rows = acting.iter().copied();
    rows.filter(|&row| is_effect(row)).collect()
}

/// What a goal wants, by all its alternatives together. What stands before the first
/// is no alternative's.
fn wanted(goal: &[Row]) -> Vec<Literal> {
    let rows = goal.iter().copied();
    let alternatives = rows.skip_while(|&(tag, _)| tag != tag::ALTERNATIVE);
    let wanted = alternatives.filter(|&row| is_wanted(row));
    wanted.map(|row| (row.1, sign(row))).collect()
}

/// How often each answer was told, and what was seen of the rows.
#[derive(Clone, Debug, Default)]
pub struct Relevances {
    /// By the first, second, third or a later effect; neither counts as by the first.
    told: BTreeMap<Told, [u64; 4]>,
    seen: BTreeMap<&'static str, u64>,
}

impl Relevances {
    pub fn add(&mut self, other: &Relevances) {
        for (&told, places) in &other.told {
            let sums = self.told.entry(told).or_default();
            for (sum, times) in sums.iter_mut().zip(places) {
                *sum += times;
            }
        }
        for (&what, &times) in &other.seen {
            *self.seen.entry(what).or_default() += times;
        }
    }

    pub fn count(&mut self, relevance: Relevance) {
        let places = self.told.entry(relevance.told()).or_default();
        let place = relevance.effect().map_or(0, |effect| effect.place);
        places[place.min(3)] += 1;
    }

    /// Counts what was looked for, if it was seen.
    pub fn see(&mut self, what: &'static str, seen: bool) {
        *self.seen.entry(what).or_default() += u64::from(seen);
    }

    /// How often this was told by the first, second, third and a later effect.
    pub fn places(&self, told: Told) -> [u64; 4] {
        self.told.get(&told).copied().unwrap_or_default()
    }

    /// How often this was told.
    pub fn told(&self, told: Told) -> u64 {
        self.places(told).iter().sum()
    }

    /// All that was looked for, and how often it was seen.
    pub fn seen(&self) -> impl Iterator<Item = (&'static str, u64)> {
        self.seen.iter().map(|(&what, &times)| (what, times))
    }

    pub fn print(&self) {
        for told in Told::ALL {
            let places = self.places(told);
            println!("{told:?}, by the first three effects and later: {places:?}");
        }
        for (what, times) in self.seen() {
            println!("{what}: {times}");
        }
    }
}
