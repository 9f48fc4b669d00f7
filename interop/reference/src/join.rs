//! The join of two orders as a sheet, goal by goal as document 01 lists it.

use crate::sheet::{OrderSheet, Rows, tag};

/// The words before the rows of an order sheet: F, G and N.
const SIZES: usize = 3;

/// One goal of an order, by its rows behind the 7 row.
struct Goal<'a> {
    /// Its 11 rows.
    afters: Rows<'a>,
    alternatives: Rows<'a>,
}

/// The goals of an order in listed order. Its 12 rows stand before all of them.
fn goals<'a>(order: &OrderSheet<'a>) -> impl Iterator<Item = Goal<'a>> {
    let (_start, mut rest) = order.rows.split_before(tag::NODE);
    std::iter::from_fn(move || {
        let (_node, behind) = rest.split_first()?;
        let goal;
        (goal, rest) = behind.split_before(tag::NODE);
        let (afters, alternatives) = goal.split_before(tag::ALTERNATIVE);
        Some(Goal {
            afters,
            alternatives,
        })
    })
}

/// The join of two orders, before it is written.
pub(crate) struct JoinedSheet {
    atoms: u16,
    goals: usize,
    rows: Vec<(u16, u16)>,
}

impl JoinedSheet {
    /// The first's start rows, the first's goals with their rows, then the
    /// second's goals, each after all of the first's. The second's start rows
    /// are dropped.
    pub(crate) fn of(atoms: u16, first: &OrderSheet<'_>, second: &OrderSheet<'_>) -> JoinedSheet {
        let first_goals = first.goals as u16;
        let mut rows: Vec<(u16, u16)> = first.rows.iter().collect();
        for goal in goals(second) {
            let own = goal.afters.iter().map(|(_, node)| first_goals + node);
            rows.push((tag::NODE, 0));
            rows.extend((0..first_goals).chain(own).map(|node| (tag::AFTER, node)));
            rows.extend(goal.alternatives.iter());
        }
        JoinedSheet {
            atoms,
            goals: first.goals + second.goals,
            rows,
        }
    }

    /// The rows that come out.
    pub(crate) fn rows(&self) -> usize {
        self.rows.len()
    }

    pub(crate) fn words(&self) -> usize {
        SIZES + 2 * self.rows()
    }

    /// Into room of exactly as many words.
    pub(crate) fn write(&self, room: &mut [u16]) {
        let (sizes, rows) = room.split_at_mut(SIZES);
        sizes.copy_from_slice(&[self.atoms, self.goals as u16, self.rows() as u16]);
        let (tags, values) = rows.split_at_mut(self.rows());
        for (i, &(tag, value)) in self.rows.iter().enumerate() {
            tags[i] = tag;
            values[i] = value;
        }
    }
}
