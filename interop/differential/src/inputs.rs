//! What the benchmarks and the measure of the stack are run on.

mod joins;
mod replays;
mod searches;

pub use joins::joins;
pub use replays::{checks, replays};
pub use searches::{deepest, searches};

use crate::draft::{Action, Node, Order, Shop, Step, trace_words};

/// A shop sheet and an order sheet, to be checked.
pub struct Check {
    pub name: String,
    pub shop: Vec<u16>,
    pub order: Vec<u16>,
}

/// Sheets and a trace that is accepted.
pub struct Replay {
    pub name: String,
    pub shop: Vec<u16>,
    pub order: Vec<u16>,
    pub trace: Vec<u16>,
}

/// Sheets, and the most steps to search.
pub struct Search {
    pub name: String,
    pub shop: Vec<u16>,
    pub order: Vec<u16>,
    pub depth: u32,
}

/// A shop sheet, and two order sheets whose join is written.
pub struct Join {
    pub name: String,
    pub shop: Vec<u16>,
    pub first: Vec<u16>,
    pub second: Vec<u16>,
}

fn check(name: &str, (shop, order): (Shop, Order)) -> Check {
    Check {
        name: format!("check, {name}"),
        shop: shop.words(),
        order: order.words(),
    }
}

fn replay(name: &str, (shop, order, steps): (Shop, Order, Vec<Step>)) -> Replay {
    Replay {
        name: format!("replay, {name}"),
        shop: shop.words(),
        order: order.words(),
        trace: trace_words(&steps),
    }
}

fn search(name: &str, (shop, order): (Shop, Order), depth: u32) -> Search {
    Search {
        name: format!("search, {name}, D {depth}"),
        shop: shop.words(),
        order: order.words(),
        depth,
    }
}

fn join(name: &str, (shop, first, second): (Shop, Order, Order)) -> Join {
    Join {
        name: format!("join, {name}"),
        shop: shop.words(),
        first: first.words(),
        second: second.words(),
    }
}

/// An action of cost 1 without needs that makes one atom true.
fn switch(atom: u16) -> Action {
    Action {
        cost: 1,
        needs: vec![],
        effects: vec![(atom, true)],
    }
}

/// So many goals, which want the atoms in turn; chained, each comes after the one
/// before.
fn goals(count: u16, atoms: u16, chained: bool) -> Order {
    let goal = |n: u16| {
        let before = n.checked_sub(1).filter(|_| chained);
        Node::wanting(&[n % atoms], before.as_slice())
    };
    Order {
        atoms,
        start: vec![],
        goals: (0..count).map(goal).collect(),
    }
}

/// Adds alternatives of up to 20 literals to a node, so many rows in all.
fn fill(node: &mut Node, mut rows: usize) {
    while rows > 0 {
        let literals = (rows - 1).min(20);
        let alternative = (0..literals as u16).map(|atom| (atom, true)).collect();
        node.alternatives.push(alternative);
        rows -= 1 + literals;
    }
}
