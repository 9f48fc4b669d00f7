//! The join of two orders as a network.

use reference::{Atoms, MAX_GOALS, Network, Rules, Shop, Trace, Unaccepted, run};

/// Two atoms; action 1 makes atom 0 true, action 2 makes atom 1 true and atom 0
/// false.
const SHOP: [u16; 14] = [2, 2, 0, 5, 1, 5, 1, 6, 5, 3, 0, 4, 0, 1];

/// Wants these atoms, in goals without afters, from a state.
fn order(shop: &Shop, start: &[u16], atoms: &[u16]) -> Network {
    let rows = start.len() + 3 * atoms.len();
    let mut words = vec![2, atoms.len() as u16, rows as u16];
    words.extend(start.iter().map(|_| 12));
    words.extend([7, 8, 9].repeat(atoms.len()));
    words.extend(start);
    words.extend(atoms.iter().flat_map(|&atom| [0, 0, atom]));
    Network::read(shop, &words).expect("a well-formed order")
}

fn at_most(most_waiting: usize) -> Rules {
    Rules { most_waiting }
}

fn shop() -> Shop {
    Shop::read(&SHOP).expect("a well-formed shop")
}

#[test]
fn the_second_comes_after_the_first() {
    let shop = shop();
    let first = order(&shop, &[0], &[0, 0]);
    let second = order(&shop, &[1], &[1]);
    let join = Network::join(&first, &second);
    assert_eq!(join.nodes.len(), 3);
    assert_eq!(join.nodes.node(0).after, 0);
    assert_eq!(join.nodes.node(1).after, 0);
    assert_eq!(join.nodes.node(2).after, 0b11);
    // The second's start rows are dropped.
    assert_eq!(join.start, Atoms::from_iter([0]));
}

#[test]
fn front_and_back_run_one_after_the_other() {
    let shop = shop();
    let first = order(&shop, &[], &[0]);
    let second = order(&shop, &[], &[1]);
    let join = Network::join(&first, &second);
    let words = [4, 1, 0, 2, 0, 0, 0, 0, 0];
    let trace = Trace::check(&words).unwrap();
    let joined = run(Rules::CALLS, &shop, &join, join.start, trace).unwrap();
    let (front, back) = trace.split_at(2);
    let front = run(at_most(MAX_GOALS - 1), &shop, &first, first.start, front).unwrap();
    let back = run(Rules::CALLS, &shop, &second, front.state, back).unwrap();
    assert_eq!((front.cost, back.cost, joined.cost), (3, 4, 7));
    assert_eq!(joined.state, back.state);
    // With the second's goal among the 64, none of the first's may wait in 0.
    let none_left = run(at_most(0), &shop, &first, first.start, trace.split_at(2).0);
    assert_eq!(none_left, Err(Unaccepted::TooManyAtStart));
}

#[test]
fn more_than_64_goals_are_too_many() {
    let shop = shop();
    let first = order(&shop, &[0], &[0; 64]);
    let second = order(&shop, &[0], &[0; 64]);
    let join = Network::join(&first, &second);
    assert_eq!(join.nodes.len(), 128);
    assert_eq!(join.nodes.node(127).after, u128::from(u64::MAX));
    let trace = Trace::check(&[0]).unwrap();
    let joined = run(Rules::CALLS, &shop, &join, join.start, trace);
    assert_eq!(joined, Err(Unaccepted::TooManyAtStart));
}
