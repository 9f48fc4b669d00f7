//! A plain and fast model of document 01, with the listing of document 02.
//!
//! It shares no code with the proved library, so that the two can be compared
//! on any input, and it is the baseline of the benchmarks.
//!
//! The six public calls take the sheets as words, as the library does.
//! [`listing()`] gives the lines of the listing program, and [`printed_listing`]
//! what it prints. Below them [`Shop`], [`Network`], [`Trace`] and [`Run`] are open
//! for tests that walk step by step, join two orders as networks or run by other
//! [`Rules`].

#![forbid(unsafe_code)]
#![warn(missing_docs)]

mod join;
mod listing;
mod literals;
mod network;
mod run;
mod search;
mod sheet;
mod unmet;

pub use listing::{Line, OF_ORDER, lines, printed_listing};
pub use literals::{Atoms, AtomsIter, Literals};
pub use network::{Action, Method, Network, Node, Nodes, Shop};
pub use run::{Accepted, METHOD_0, Rules, Run, Unaccepted, WaitingList, run};
pub use search::{Budget, MAX_DEPTH, Stopped};
pub use sheet::{
    MAX_ACTIONS, MAX_ATOMS, MAX_GOALS, MAX_METHOD_NODES, MAX_METHODS, MAX_ROWS, MAX_STEPS, Refusal,
    Trace, tag,
};
pub use unmet::ReplayRefusal;

use join::JoinedSheet;
use sheet::{OrderSheet, ShopSheet};
use unmet::SheetRows;

/// Questions 1 to 9.
pub fn check_shop(shop: &[u16]) -> Result<(), Refusal> {
    ShopSheet::check(shop)?;
    Ok(())
}

/// Questions 1 to 9 and 11 to 18.
pub fn check_order(shop: &[u16], order: &[u16]) -> Result<(), Refusal> {
    let shop = ShopSheet::check(shop)?;
    OrderSheet::check(shop.atoms, order)?;
    Ok(())
}

/// Questions 1 to 9, 11 to 18 and 21 to 23.
pub fn check_trace(shop: &[u16], order: &[u16], trace: &[u16]) -> Result<(), Refusal> {
    check_order(shop, order)?;
    Trace::check(trace)?;
    Ok(())
}

/// All questions up to 33. The plan is written only when the trace is accepted.
pub fn replay(
    shop: &[u16],
    order: &[u16],
    trace: &[u16],
    plan: &mut [u16],
) -> Result<Accepted, ReplayRefusal> {
    let shop = ShopSheet::check(shop)?;
    let order = OrderSheet::check(shop.atoms, order)?;
    let trace = Trace::check(trace)?;
    if plan.len() < trace.len() {
        return Err(Refusal::new(24, 0).into());
    }
    let rows = SheetRows::of(&shop, &order);
    let shop = Shop::build(&shop);
    let order = Network::build(&order);
    let run = Run::start(Rules::CALLS, &shop, &order, order.start);
    let mut run = run.expect("question 12 keeps an order to 64 goals");
    let accepted = match run.accept(trace) {
        Ok(accepted) => accepted,
        Err(refusal) => return Err(rows.named(refusal, &run, trace)),
    };
    for (word, action) in plan.iter_mut().zip(trace.plan()) {
        *word = action;
    }
    Ok(accepted)
}

/// The lines of the listing of an accepted trace; refused as [`replay`] with room
/// for every plan is.
pub fn listing(shop: &[u16], order: &[u16], trace: &[u16]) -> Result<Vec<Line>, ReplayRefusal> {
    replay(shop, order, trace, &mut [0; MAX_STEPS as usize])?;
    let shop = Shop::read(shop)?;
    let order = Network::read(&shop, order)?;
    let trace = Trace::check(trace)?;
    let lines = lines(Rules::CALLS, &shop, &order, order.start, trace);
    Ok(lines.expect("the replay accepts it"))
}

/// Questions 1 to 9, 11 to 18 and 41 to 43. Gives the number of steps found;
/// the trace is written only then.
pub fn search(shop: &[u16], order: &[u16], depth: u32, room: &mut [u16]) -> Result<usize, Refusal> {
    match search_within(shop, order, depth, room, Budget::unlimited()) {
        Ok(steps) => Ok(steps),
        Err(Stopped::Refused(refusal)) => Err(refusal),
        Err(Stopped::BudgetSpent) => unreachable!("an unlimited budget is never spent"),
    }
}

/// [`search`], but given up when the budget is spent.
pub fn search_within(
    shop: &[u16],
    order: &[u16],
    depth: u32,
    room: &mut [u16],
    budget: Budget,
) -> Result<usize, Stopped> {
    let shop = ShopSheet::check(shop)?;
    let order = OrderSheet::check(shop.atoms, order)?;
    if depth > MAX_DEPTH {
        return Err(Refusal::new(41, 0).into());
    }
    let depth = depth as usize;
    if room.len() < 1 + 2 * depth {
        return Err(Refusal::new(42, 0).into());
    }
    let shop = Shop::build(&shop);
    let order = Network::build(&order);
    let steps = search::shortest(&shop, &order, depth, budget)?;
    room[0] = steps.len() as u16;
    let (moves, places) = room[1..1 + 2 * steps.len()].split_at_mut(steps.len());
    for (i, step) in steps.iter().enumerate() {
        moves[i] = step.word;
        places[i] = step.place;
    }
    Ok(steps.len())
}

/// Questions 1 to 9, 11 to 18 of the first order, 11 to 18 of the second, then
/// 81 to 83. Gives the number of words of the joined sheet; it is written only
/// then.
pub fn join(
    shop: &[u16],
    first: &[u16],
    second: &[u16],
    room: &mut [u16],
) -> Result<usize, Refusal> {
    let shop = ShopSheet::check(shop)?;
    let first = OrderSheet::check(shop.atoms, first)?;
    let second = OrderSheet::check(shop.atoms, second)?;
    if first.goals + second.goals > MAX_GOALS {
        return Err(Refusal::new(81, 0));
    }
    let joined = JoinedSheet::of(shop.atoms, &first, &second);
    if joined.rows() > usize::from(MAX_ROWS) {
        return Err(Refusal::new(82, 0));
    }
    let Some(room) = room.get_mut(..joined.words()) else {
        return Err(Refusal::new(83, 0));
    };
    joined.write(room);
    Ok(joined.words())
}
