//! A safe wrapper of the proved night planner.
//!
//! The planner reads three kinds of sheet, all slices of 16-bit words: a shop
//! (actions and methods), an order (goals) and a trace (the derivation of a
//! plan). It checks sheets, replays a trace, searches for a short one, and writes
//! the join of two orders as a sheet.
//!
//! Each call asks its questions in a fixed order and stops at the first no.
//! That question's number, and the row, method or step where it was asked, is
//! the [`Refusal`]. Where a replay is refused because a goal or needs do not
//! hold (29 and 30), it also names the first atom that is not as wanted. A
//! refused call writes nothing into lent memory.
//!
//! A call keeps no memory of its own between calls and may be made from any
//! number of threads.
//!
//! # One core of sixty centimetres
//!
//! ```
//! // Atoms: 0 clamped at bark, 1 bark half scanned, 2 clamped at pith,
//! // 3 pith half scanned. Four actions and one method, in 28 rows.
//! let shop = [
//!     4, 4, 1, 28, //
//!     1, 5, 6, 1, 3, 5, 1, 3, 6, 5, 1, 3, 5, // tags of the actions
//!     2, 7, 8, 9, 7, 11, 8, 9, 7, 11, 8, 9, 7, 8, 9, // tags of the method
//!     3, 0, 2, 10, 0, 1, 3, 1, 0, 2, 10, 2, 3, // values of the actions
//!     0, 0, 0, 0, 0, 0, 0, 1, 0, 1, 0, 2, 0, 0, 3, // values of the method
//! ];
//! let order = [4, 1, 3, 7, 8, 9, 0, 0, 3];
//!
//! let mut room = [0; liropuva::SEARCH_ROOM];
//! let found = liropuva::search(&shop, &order, 10, &mut room)?;
//! let trace = found.trace(&room);
//! assert_eq!(trace[0], 10);
//! assert_eq!(trace[1..11], [256, 1, 0, 2, 0, 3, 0, 4, 0, 0]);
//! assert_eq!(trace[11..], [0; 10]);
//!
//! let mut plan = [0; 10];
//! let accepted = liropuva::replay(&shop, &order, trace, &mut plan)?;
//! assert_eq!(accepted.plan(&plan), [1, 2, 3, 4]);
//! assert_eq!(accepted.cost, 26);
//! assert_eq!(accepted.state.iter().collect::<Vec<_>>(), [1, 2, 3]);
//!
//! let refusal = liropuva::search(&shop, &order, 9, &mut room).unwrap_err();
//! assert_eq!((refusal.number, refusal.unmet), (43, None));
//!
//! // One step, action 4: to scan the pith half needs it clamped at pith.
//! let refusal = liropuva::replay(&shop, &order, &[1, 4, 0], &mut plan).unwrap_err();
//! assert_eq!((refusal.number, refusal.place, refusal.unmet), (30, 0, Some(2)));
//! assert_eq!(
//!     refusal.to_string(),
//!     "refused with 30 at step 0, where atom 2 is not as wanted: \
//!      the answer is no to \"do the needs of the action or method hold?\""
//! );
//! # Ok::<(), liropuva::Refusal>(())
//! ```
//!
//! # Two trays, one night
//!
//! ```
//! # let shop = [
//! #     4, 4, 1, 28, //
//! #     1, 5, 6, 1, 3, 5, 1, 3, 6, 5, 1, 3, 5, // tags of the actions
//! #     2, 7, 8, 9, 7, 11, 8, 9, 7, 11, 8, 9, 7, 8, 9, // tags of the method
//! #     3, 0, 2, 10, 0, 1, 3, 1, 0, 2, 10, 2, 3, // values of the actions
//! #     0, 0, 0, 0, 0, 0, 0, 1, 0, 1, 0, 2, 0, 0, 3, // values of the method
//! # ];
//! // The shop is that of the long core. The first order wants the pith half
//! // scanned, the second a core clamped at bark.
//! let first = [4, 1, 3, 7, 8, 9, 0, 0, 3];
//! let second = [4, 1, 3, 7, 8, 9, 0, 0, 0];
//!
//! let mut room = [0; liropuva::JOIN_ROOM];
//! let joined = liropuva::join(&shop, &first, &second, &mut room)?;
//! let order = joined.sheet(&room);
//! // Two goals in seven rows: the second's goal comes after the first's, 11 0.
//! assert_eq!(order[..3], [4, 2, 7]);
//! assert_eq!(order[3..10], [7, 8, 9, 7, 11, 8, 9]);
//! assert_eq!(order[10..], [0, 0, 3, 0, 0, 0, 0]);
//!
//! // The trace of the long core, then the clamp and the second goal's release.
//! let mut trace = [0; 1 + 2 * 12];
//! trace[..13].copy_from_slice(&[12, 256, 1, 0, 2, 0, 3, 0, 4, 0, 0, 1, 0]);
//! let mut plan = [0; 12];
//! let accepted = liropuva::replay(&shop, order, &trace, &mut plan)?;
//! assert_eq!(accepted.plan(&plan), [1, 2, 3, 4, 1]);
//! assert_eq!(accepted.cost, 29);
//!
//! let refusal = liropuva::join(&shop, &first, &second, &mut room[..16]).unwrap_err();
//! assert_eq!(
//!     refusal.to_string(),
//!     "refused with 83: the answer is no to \"is there room for the joined sheet?\""
//! );
//! # Ok::<(), liropuva::Refusal>(())
//! ```

#![warn(missing_docs)]
#![deny(unsafe_op_in_unsafe_fn)]
#![warn(clippy::undocumented_unsafe_blocks)]

mod capi;
mod refusal;
mod state;

pub use refusal::{Place, QUESTIONS, Question, Refusal, Subject};
pub use state::{Atoms, State};

/// The most words of plan that a trace can need: one for each of 4,096 steps.
pub const PLAN_ROOM: usize = 4096;

/// The most words that a search can write: a trace of 32 steps.
pub const SEARCH_ROOM: usize = 65;

/// The most words that a join can write: an order sheet of 4,000 rows.
pub const JOIN_ROOM: usize = 8003;

/// The atom of a [`ReplayAnswer`] that names none: atoms are below it.
pub const NO_ATOM: u32 = 256;

/// The answer of a sheet check, a search or a join, as the library gives it.
#[derive(Clone, Copy, Debug, PartialEq, Eq)]
pub struct Answer {
    /// The question answered no, or 0.
    pub number: u32,
    /// Its place. For a search that found a trace: the number of steps.
    pub place: u32,
}

impl Answer {
    fn passed(self) -> Result<u32, Refusal> {
        match self.number {
            0 => Ok(self.place),
            number => Err(Refusal {
                number,
                place: self.place,
                unmet: None,
            }),
        }
    }
}

/// The answer of a replay, as the library gives it. When the trace is refused,
/// the state is empty and both counts are 0; only 29 and 30 name an atom.
#[derive(Clone, Debug, PartialEq, Eq)]
pub struct ReplayAnswer {
    /// The question answered no, or 0.
    pub number: u32,
    /// Its place, or the number of steps.
    pub place: u32,
    /// The number of actions in the plan.
    pub plan_count: u32,
    /// The sum of their costs.
    pub cost: u32,
    /// The first atom that is not as wanted, as [`Refusal::unmet`] says;
    /// [`NO_ATOM`] for none.
    pub atom: u32,
    /// The state after the last step.
    pub state: State,
}

impl ReplayAnswer {
    fn unmet(&self) -> Option<u16> {
        match self.atom {
            NO_ATOM => None,
            atom => Some(atom as u16),
        }
    }
}

/// An accepted trace.
#[derive(Clone, Debug, PartialEq, Eq)]
pub struct Accepted {
    /// The number of steps of the trace.
    pub steps: usize,
    /// The number of actions in the plan.
    pub plan_count: usize,
    /// The sum of their costs.
    pub cost: u32,
    /// The state after the last step.
    pub state: State,
}

impl Accepted {
    /// The plan within the room that was lent to [`replay`]. Of another room it
    /// gives other words.
    ///
    /// # Panics
    ///
    /// Where the slice is shorter than the plan.
    pub fn plan<'a>(&self, room: &'a [u16]) -> &'a [u16] {
        &room[..self.plan_count]
    }
}

/// A found trace.
#[derive(Clone, Copy, Debug, PartialEq, Eq)]
pub struct Found {
    /// The number of steps.
    pub steps: usize,
}

impl Found {
    /// The trace within the room that was lent to [`search`]. Of another room it
    /// gives other words.
    ///
    /// # Panics
    ///
    /// Where the slice is shorter than the trace.
    pub fn trace<'a>(&self, room: &'a [u16]) -> &'a [u16] {
        &room[..1 + 2 * self.steps]
    }
}

/// A joined order that was written.
#[derive(Clone, Copy, Debug, PartialEq, Eq)]
pub struct Joined {
    /// The number of its rows.
    pub rows: usize,
}

impl Joined {
    /// The joined order sheet within the room that was lent to [`join`]. Of
    /// another room it gives other words.
    ///
    /// # Panics
    ///
    /// Where the slice is shorter than the sheet.
    pub fn sheet<'a>(&self, room: &'a [u16]) -> &'a [u16] {
        &room[..3 + 2 * self.rows]
    }
}

/// Checks a shop sheet: questions 1 to 9.
pub fn check_shop(shop: &[u16]) -> Result<(), Refusal> {
    check_shop_answer(shop).passed().map(|_| ())
}

/// Checks a shop sheet and an order sheet: questions 1 to 9 and 11 to 18.
pub fn check_order(shop: &[u16], order: &[u16]) -> Result<(), Refusal> {
    check_order_answer(shop, order).passed().map(|_| ())
}

/// Checks all three sheets: questions 1 to 9, 11 to 18 and 21 to 23. No step is
/// taken.
pub fn check_trace(shop: &[u16], order: &[u16], trace: &[u16]) -> Result<(), Refusal> {
    check_trace_answer(shop, order, trace).passed().map(|_| ())
}

/// Replays a trace: all questions from 1 to 33.
///
/// A `plan` with fewer words than the trace has steps is refused with 24. The
/// plan's action numbers go into its first words; the others are left alone,
/// and so is all of it when the call is refused.
pub fn replay(
    shop: &[u16],
    order: &[u16],
    trace: &[u16],
    plan: &mut [u16],
) -> Result<Accepted, Refusal> {
    let answer = replay_answer(shop, order, trace, plan);
    match answer.number {
        0 => Ok(Accepted {
            steps: answer.place as usize,
            plan_count: answer.plan_count as usize,
            cost: answer.cost,
            state: answer.state,
        }),
        number => Err(Refusal {
            number,
            place: answer.place,
            unmet: answer.unmet(),
        }),
    }
}

/// Finds the first of the shortest accepted traces of at most `depth` steps:
/// questions 1 to 9, 11 to 18 and 41 to 43.
///
/// A `depth` above 32 is refused with 41, a `room` of fewer than `1 + 2 * depth`
/// words with 42. The trace goes into the first words of `room`; the others are
/// left alone, and so is all of it when the call is refused.
pub fn search(shop: &[u16], order: &[u16], depth: u32, room: &mut [u16]) -> Result<Found, Refusal> {
    let steps = search_answer(shop, order, depth, room).passed()?;
    Ok(Found {
        steps: steps as usize,
    })
}

/// Writes the join of two orders as an order sheet: questions 1 to 9, 11 to 18 of
/// the first order, 11 to 18 of the second, then 81 to 83.
///
/// The join has the first's start rows and goals, then the second's goals, each
/// of them after all of the first's. The second's start rows are checked and then
/// dropped. `first` and `second` may be one sheet. A refusal with 11 to 18 can be
/// of either order: [`check_order`] of the first alone tells which.
///
/// More than 64 goals together are refused with 81, more than 4,000 rows that
/// come out with 82, a `room` too short for the joined sheet with 83.
/// [`JOIN_ROOM`] words are always enough. The sheet goes into the first words of
/// `room`; the others are left alone, and so is all of it when the call is
/// refused.
pub fn join(
    shop: &[u16],
    first: &[u16],
    second: &[u16],
    room: &mut [u16],
) -> Result<Joined, Refusal> {
    join_answer(shop, first, second, room).passed()?;
    // The third word of an order sheet is the number of its rows.
    Ok(Joined {
        rows: usize::from(room[2]),
    })
}

/// [`check_shop`] with the library's own answer.
pub fn check_shop_answer(shop: &[u16]) -> Answer {
    capi::check_shop(shop)
}

/// [`check_order`] with the library's own answer.
pub fn check_order_answer(shop: &[u16], order: &[u16]) -> Answer {
    capi::check_order(shop, order)
}

/// [`check_trace`] with the library's own answer.
pub fn check_trace_answer(shop: &[u16], order: &[u16], trace: &[u16]) -> Answer {
    capi::check_trace(shop, order, trace)
}

/// [`replay`] with the library's own answer.
pub fn replay_answer(shop: &[u16], order: &[u16], trace: &[u16], plan: &mut [u16]) -> ReplayAnswer {
    capi::replay(shop, order, trace, plan)
}

/// [`search`] with the library's own answer.
pub fn search_answer(shop: &[u16], order: &[u16], depth: u32, room: &mut [u16]) -> Answer {
    capi::search(shop, order, depth, room)
}

/// [`join`] with the library's own answer.
pub fn join_answer(shop: &[u16], first: &[u16], second: &[u16], room: &mut [u16]) -> Answer {
    capi::join(shop, first, second, room)
}
