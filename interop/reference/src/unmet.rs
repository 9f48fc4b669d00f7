//! The atom that a refused replay names.
//!
//! It is read off the rows of the sheets, on the way to a refusal: the sets of
//! atoms that a run tests do not know in which order the rows are listed.

use crate::literals::Atoms;
use crate::run::{METHOD_0, Origin, Run};
use crate::sheet::{OrderSheet, Refusal, Rows, ShopSheet, Trace, tag};

/// The first question of a replay that was answered no.
#[derive(Clone, Copy, Debug, PartialEq, Eq)]
pub struct ReplayRefusal {
    /// The number of the question.
    pub number: u16,
    /// The row, method or step, as the question says; else 0.
    pub place: usize,
    /// For 29 and 30 the first atom that is not as wanted, of a goal the first of
    /// its first alternative; no other number names one.
    pub unmet: Option<u16>,
}

impl From<Refusal> for ReplayRefusal {
    /// One that names no atom.
    fn from(refusal: Refusal) -> ReplayRefusal {
        ReplayRefusal {
            number: refusal.number,
            place: refusal.place,
            unmet: None,
        }
    }
}

/// The rows of sheets that passed.
#[derive(Clone, Copy)]
pub(crate) struct SheetRows<'a> {
    shop: Rows<'a>,
    order: Rows<'a>,
}

impl<'a> SheetRows<'a> {
    pub(crate) fn of(shop: &ShopSheet<'a>, order: &OrderSheet<'a>) -> SheetRows<'a> {
        SheetRows {
            shop: shop.rows,
            order: order.rows,
        }
    }

    /// A refusal of the trace's steps with the atom that it names. The run stands
    /// before the refused step.
    pub(crate) fn named(self, refusal: Refusal, run: &Run<'_>, trace: Trace<'_>) -> ReplayRefusal {
        let step = trace.steps().nth(refusal.place);
        let unmet = step.and_then(|(place, word)| match refusal.number {
            29 => self.unmet_by_goal(run, place),
            30 => self.unmet_by_needs(run, word),
            _ => None,
        });
        ReplayRefusal {
            unmet,
            ..refusal.into()
        }
    }

    /// In the first alternative of the goal, whatever the others lack.
    fn unmet_by_goal(self, run: &Run<'_>, place: u16) -> Option<u16> {
        let node = match run.origin(run.waiting().goal(usize::from(place))) {
            Origin::Order(goal) => behind(self.order, tag::NODE, goal),
            Origin::Shop(node) => behind(self.shop, tag::NODE, node),
        };
        let alternative = node.skip_while(|row| row.0 != tag::ALTERNATIVE).skip(1);
        first_unmet(alternative, run.state())
    }

    /// In the needs that stand directly behind the action or method.
    fn unmet_by_needs(self, run: &Run<'_>, word: u16) -> Option<u16> {
        let needs = match word.checked_sub(METHOD_0) {
            None => behind(self.shop, tag::ACTION, usize::from(word) - 1),
            Some(method) => behind(self.shop, tag::METHOD, usize::from(method)),
        };
        first_unmet(needs, run.state())
    }
}

/// The rows behind the row that has this tag and, among all that have it, this
/// number from 0.
fn behind(rows: Rows<'_>, tag: u16, number: usize) -> impl Iterator<Item = (u16, u16)> {
    let mut rows = rows.iter();
    rows.by_ref().filter(|row| row.0 == tag).nth(number);
    rows
}

/// The atom of the first row that is not as wanted in the state. The rows end at
/// one that is neither a need nor a literal of an alternative.
fn first_unmet(rows: impl Iterator<Item = (u16, u16)>, state: &Atoms) -> Option<u16> {
    rows.map_while(|(tag, atom)| Some((wanted(tag)?, atom)))
        .find(|&(wanted, atom)| state.contains(atom) != wanted)
        .map(|(_, atom)| atom)
}

/// Does a row with this tag want its atom true, or false?
fn wanted(tag: u16) -> Option<bool> {
    match tag {
        tag::NEEDS_TRUE | tag::WANTED_TRUE => Some(true),
        tag::NEEDS_FALSE | tag::WANTED_FALSE => Some(false),
        _ => None,
    }
}
