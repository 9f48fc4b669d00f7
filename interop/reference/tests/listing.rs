//! Listings that were worked out by hand from document 02, Req 03.

use reference::{Line, listing, printed_listing};
use words::sheet;

mod words;

fn bytes(words: &[u16]) -> Vec<u8> {
    words.iter().flat_map(|word| word.to_le_bytes()).collect()
}

/// Actions 1 to 3 make atoms 0 to 2 true. Method 0 is for atom 2 by atom 1,
/// method 1 for atom 1 by atom 0.
fn shop() -> Vec<u16> {
    let node = |atom| [(7, 0), (8, 0), (9, atom)];
    let mut rows: Vec<(u16, u16)> = (0..3).flat_map(|atom| [(1, 1), (5, atom)]).collect();
    for goal in [2, 1] {
        rows.push((2, 0));
        rows.extend(node(goal - 1));
        rows.extend(node(goal));
    }
    sheet(&[3, 3, 2], &rows)
}

/// Goals of one atom each, in any order.
fn order(atoms: &[u16]) -> Vec<u16> {
    let rows: Vec<(u16, u16)> = atoms
        .iter()
        .flat_map(|&atom| [(7, 0), (8, 0), (9, atom)])
        .collect();
    sheet(&[3, atoms.len() as u16], &rows)
}

/// Moves and places.
fn trace(steps: &[(u16, u16)]) -> Vec<u16> {
    sheet(&[], steps)
}

/// Goals above, step of release, step that brought it in, method.
fn lines(shop: &[u16], order: &[u16], trace: &[u16]) -> Vec<(usize, usize, u16, u16)> {
    let lines = listing(shop, order, trace).expect("an accepted trace");
    let numbers = |line: Line| (line.above, line.released, line.brought, line.method);
    lines.into_iter().map(numbers).collect()
}

const ORDER: u16 = 65_535;

#[test]
fn a_method_within_a_method() {
    let steps = [256, 257, 1, 0, 2, 0, 0, 3, 0, 0].map(|word| (word, 0));
    assert_eq!(
        lines(&shop(), &order(&[2]), &trace(&steps)),
        [
            (2, 3, 1, 1),
            (2, 5, 1, 1),
            (1, 6, 0, 0),
            (1, 8, 0, 0),
            (0, 9, ORDER, ORDER)
        ]
    );
}

#[test]
fn two_methods_at_two_goals_by_turns() {
    let steps = [
        (256, 0),
        (257, 3),
        (1, 3),
        (2, 0),
        (0, 0),
        (0, 2),
        (3, 0),
        (0, 0),
        (0, 1),
        (0, 1),
        (0, 0),
    ];
    assert_eq!(
        lines(&shop(), &order(&[2, 1]), &trace(&steps)),
        [
            (1, 4, 0, 0),
            (1, 5, 1, 1),
            (1, 7, 0, 0),
            (1, 8, 1, 1),
            (0, 9, ORDER, ORDER),
            (0, 10, ORDER, ORDER)
        ]
    );
}

#[test]
fn the_program_prints_a_tree() {
    let steps = [256, 2, 0, 3, 0, 0].map(|word| (word, 0));
    let printed = |order: &[u16], steps: &[(u16, u16)], more: &[u8]| {
        let mut trace = bytes(&trace(steps));
        trace.extend(more);
        let text = printed_listing(&bytes(&shop()), &bytes(order), &trace);
        String::from_utf8(text).expect("digits and blanks")
    };
    let tree = "  2 0 0\n  4 0 0\n5 65535 65535\n";
    assert_eq!(printed(&order(&[2]), &steps, b""), tree);
    assert_eq!(printed(&order(&[2]), &steps, b"x"), tree);
    assert_eq!(printed(&order(&[2]), &steps, b"xy"), "23 0 0 0 256\n");
    assert_eq!(printed(&order(&[2]), &steps[..5], b""), "33 5 0 0 256\n");
    assert_eq!(printed(&order(&[2]), &[(0, 0)], b""), "29 0 0 0 2\n");
    assert_eq!(printed(&order(&[]), &[], b""), "");
    assert_eq!(printed_listing(b"", b"", b""), b"1 0 0 0 256\n");
}
