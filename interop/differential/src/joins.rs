//! What joins answered, and how near to their limits the orders were.

use std::collections::BTreeMap;

use reference::{MAX_GOALS, MAX_ROWS};

use crate::compare::Counts;
use crate::draft::Order;

const MOST_ROWS: usize = MAX_ROWS as usize;

/// What comes out of joining two well-formed orders, by their drafts.
#[derive(Clone, Copy, Debug)]
pub struct Sizes {
    pub goals: usize,
    pub rows: usize,
    /// The start rows of the second order, which are dropped.
    pub dropped: usize,
}

impl Sizes {
    pub fn of(first: &Order, second: &Order) -> Sizes {
        let join = first.join(second);
        Sizes {
            goals: join.goals.len(),
            rows: join.sheet().rows.len(),
            dropped: second.start.len(),
        }
    }

    pub fn words(&self) -> usize {
        3 + 2 * self.rows
    }

    /// The number that the join must answer in a room of so many words.
    pub fn number(&self, room: usize) -> u32 {
        if self.goals > MAX_GOALS {
            81
        } else if self.rows > MOST_ROWS {
            82
        } else if room < self.words() {
            83
        } else {
            0
        }
    }
}

/// A limit that a join just keeps, or just passes.
#[derive(Clone, Copy, Debug, PartialEq, Eq, PartialOrd, Ord)]
pub enum Edge {
    /// Written with 64 goals, or 81 with 65.
    MostGoals,
    OneGoalMore,
    /// Written with 4,000 rows, or 82 with 4,001.
    MostRows,
    OneRowMore,
    /// Written, though with the start rows that are dropped there would be more
    /// than 4,000 rows.
    DroppedRows,
    /// Written into just enough room, or 83 with one word less.
    JustEnoughRoom,
    OneWordLess,
}

impl Edge {
    pub const ALL: [Edge; 7] = [
        Edge::MostGoals,
        Edge::OneGoalMore,
        Edge::MostRows,
        Edge::OneRowMore,
        Edge::DroppedRows,
        Edge::JustEnoughRoom,
        Edge::OneWordLess,
    ];

    fn is_met(self, sizes: &Sizes, room: usize, number: u32) -> bool {
        match self {
            Edge::MostGoals => number == 0 && sizes.goals == MAX_GOALS,
            Edge::OneGoalMore => number == 81 && sizes.goals == MAX_GOALS + 1,
            Edge::MostRows => number == 0 && sizes.rows == MOST_ROWS,
            Edge::OneRowMore => number == 82 && sizes.rows == MOST_ROWS + 1,
            Edge::DroppedRows => number == 0 && sizes.rows + sizes.dropped > MOST_ROWS,
            Edge::JustEnoughRoom => number == 0 && room == sizes.words(),
            Edge::OneWordLess => number == 83 && room + 1 == sizes.words(),
        }
    }
}

/// How often joins answered each number, and in which cases.
#[derive(Clone, Debug, Default)]
pub struct Joins {
    /// All joins.
    pub answers: Counts,
    /// Those that the second order was refused in.
    pub second_refused: Counts,
    /// The outer joins of three orders, where the inner joins of both groupings
    /// were written.
    pub groupings: Counts,
    /// The outer joins of three orders, where the inner join of this grouping
    /// alone was written.
    pub lone_groupings: Counts,
    edges: BTreeMap<Edge, u64>,
}

impl Joins {
    /// How often joins met this limit.
    pub fn at(&self, edge: Edge) -> u64 {
        self.edges.get(&edge).copied().unwrap_or(0)
    }

    /// Counts an answer. Where the first order passes, 11 to 18 are of the second.
    pub(crate) fn count(&mut self, number: u32, first_passes: bool) {
        self.answers.count(number, 1);
        if first_passes && (11..=18).contains(&number) {
            self.second_refused.count(number, 1);
        }
    }

    /// Counts which limits a join met that answered this number.
    pub fn count_edges(&mut self, sizes: &Sizes, room: usize, number: u32) {
        let met = Edge::ALL.into_iter();
        for edge in met.filter(|edge| edge.is_met(sizes, room, number)) {
            *self.edges.entry(edge).or_default() += 1;
        }
    }

    pub(crate) fn add(&mut self, other: &Joins) {
        self.answers.add(&other.answers);
        self.second_refused.add(&other.second_refused);
        self.groupings.add(&other.groupings);
        self.lone_groupings.add(&other.lone_groupings);
        for (&edge, &times) in &other.edges {
            *self.edges.entry(edge).or_default() += times;
        }
    }

    pub fn print(&self) {
        for (what, counts) in [
            ("joins", &self.answers),
            ("joins with a refused second order", &self.second_refused),
            ("three orders, both inner joins written", &self.groupings),
            ("three orders, one inner join written", &self.lone_groupings),
        ] {
            println!("{what}, by number: {counts:?}; total {}", counts.total());
        }
        println!("limits that joins met: {:?}", self.edges);
    }
}
