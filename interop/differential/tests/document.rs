//! The cases of document 01, asked of both sides.

use differential::compare::{self, Tally};
use differential::cores;
use differential::draft::{Row, Sheet, Step, trace_words};
use differential::random::Random;

/// Number, place, plan count, cost and atom of a replay on which both sides
/// agree.
fn replay(shop: &[u16], order: &[u16], steps: &[Step]) -> [u32; 5] {
    let (mut tally, mut random) = (Tally::default(), Random::new(1));
    let trace = trace_words(steps);
    let replayed = compare::replay(&mut tally, &mut random, shop, order, &trace, steps.len());
    compare::checks(&mut tally, shop, order, &trace);
    compare::words(&replayed.answer)
}

fn sheet(sizes: &[u16], rows: &[Row]) -> Vec<u16> {
    let (sizes, rows) = (sizes.to_vec(), rows.to_vec());
    Sheet { sizes, rows }.words()
}

fn core_replay(steps: &[Step]) -> [u32; 5] {
    let (shop, order) = (cores::shop(1).words(), cores::order(1, false).words());
    replay(&shop, &order, steps)
}

#[test]
fn the_long_core_is_the_documents() {
    let shop = cores::shop(1).words();
    assert_eq!(shop[..4], [4, 4, 1, 28]);
    let tags = [
        1, 5, 6, 1, 3, 5, 1, 3, 6, 5, 1, 3, 5, 2, 7, 8, 9, 7, 11, 8, 9, 7, 11, 8, 9, 7, 8, 9,
    ];
    assert_eq!(shop[4..32], tags);
    let values = [
        3, 0, 2, 10, 0, 1, 3, 1, 0, 2, 10, 2, 3, 0, 0, 0, 0, 0, 0, 0, 1, 0, 1, 0, 2, 0, 0, 3,
    ];
    assert_eq!(shop[32..], values);
    let order = cores::order(1, false).words();
    assert_eq!(order, [4, 1, 3, 7, 8, 9, 0, 0, 3]);
}

#[test]
fn the_long_core() {
    let mut steps = cores::steps();
    assert_eq!(core_replay(&steps), [0, 10, 4, 26, 256]);
    assert_eq!(core_replay(&steps[..9]), [33, 9, 0, 0, 256]);
    steps.push((0, 0));
    assert_eq!(core_replay(&steps), [25, 10, 0, 0, 256]);
}

#[test]
fn no_goals_and_no_steps() {
    let shop = cores::shop(1).words();
    assert_eq!(replay(&shop, &[4, 0, 0], &[]), [0, 0, 0, 0, 256]);
}

#[test]
fn the_first_steps() {
    assert_eq!(core_replay(&[(0, 4)]), [30, 0, 0, 0, 2]);
    assert_eq!(core_replay(&[(0, 1)]), [31, 0, 0, 0, 256]);
    assert_eq!(core_replay(&[(0, 5)]), [26, 0, 0, 0, 256]);
    assert_eq!(core_replay(&[(0, 0)]), [29, 0, 0, 0, 3]);
    assert_eq!(core_replay(&[(0, 256), (4, 0)]), [28, 1, 0, 0, 256]);
    assert_eq!(core_replay(&[(0, 256), (5, 0)]), [25, 1, 0, 0, 256]);
}

#[test]
fn relevance_looks_at_all_alternatives_together() {
    let shop = sheet(&[2, 1, 0], &[(1, 0), (5, 0)]);
    let goal = [(7, 0), (8, 0), (9, 0), (8, 0), (10, 0), (9, 1)];
    let order = sheet(&[2, 1], &goal);
    assert_eq!(replay(&shop, &order, &[(0, 1)]), [31, 0, 0, 0, 256]);
}

/// At first the second alternative lacks one row and the first two; from other
/// states both lack one, and the second holds.
#[test]
fn an_atom_of_the_first_alternative_is_named() {
    let goal = [(9, 0), (9, 1), (8, 0), (9, 2), (10, 3)];
    let goal = |start: &[Row]| [start, &[(7, 0), (8, 0)], &goal].concat();
    let released = |rows: &[Row]| replay(&[4, 0, 0, 0], &sheet(&[4, 1], rows), &[(0, 0)]);
    assert_eq!(released(&goal(&[])), [29, 0, 0, 0, 0]);
    assert_eq!(released(&goal(&[(12, 0)])), [29, 0, 0, 0, 1]);
    assert_eq!(released(&goal(&[(12, 2)])), [0, 1, 0, 0, 256]);
}

#[test]
fn a_sheet_that_is_refused_names_no_atom() {
    assert_eq!(replay(&[], &[], &[]), [1, 0, 0, 0, 256]);
}

#[test]
fn sixty_four_may_wait() {
    let shop = sheet(&[1, 0, 1], &[(2, 0), (7, 0), (8, 0), (9, 0)]);
    let order = sheet(&[1, 1], &[(7, 0), (8, 0), (9, 0)]);
    assert_eq!(replay(&shop, &order, &[(0, 256); 63]), [33, 63, 0, 0, 256]);
    assert_eq!(replay(&shop, &order, &[(0, 256); 64]), [32, 63, 0, 0, 256]);
    // With the atom true at the start, all 64 are released again.
    let order = sheet(&[1, 1], &[(12, 0), (7, 0), (8, 0), (9, 0)]);
    let steps = [vec![(0, 256); 63], vec![(0, 0); 64]].concat();
    assert_eq!(replay(&shop, &order, &steps), [0, 127, 0, 0, 256]);
}

#[test]
fn searches() {
    let (shop, order) = (cores::shop(1).words(), cores::order(1, false).words());
    let (mut tally, mut random) = (Tally::default(), Random::new(1));
    for (depth, room, expected) in [
        (10, 21, (0, 10)),
        (12, 65, (0, 10)),
        (9, 65, (43, 0)),
        (33, 100, (41, 0)),
        // In their low 16 bits 0, 1, 32 and 65,535.
        (65_536, 100, (41, 0)),
        (65_537, 100, (41, 0)),
        (65_568, 100, (41, 0)),
        (u32::MAX, 100, (41, 0)),
        (10, 20, (42, 0)),
    ] {
        let sheets = (&shop[..], &order[..]);
        let answer = compare::search(&mut tally, &mut random, sheets, depth, room, u64::MAX);
        let answer = answer.expect("no budget");
        assert_eq!((answer.number, answer.place), expected);
    }
}

/// Several cores in one order, up to 30 steps.
#[test]
fn searches_for_cores() {
    let (mut tally, mut random) = (Tally::default(), Random::new(1));
    for (count, chained) in [(1, false), (2, true), (2, false), (3, true)] {
        let shop = cores::shop(count).words();
        let order = cores::order(count, chained).words();
        let steps = u32::from(count * cores::STEPS_A_CORE);
        for (depth, expected) in [(steps, (0, steps)), (steps - 1, (43, 0))] {
            let sheets = (&shop[..], &order[..]);
            let answer = compare::search(&mut tally, &mut random, sheets, depth, 65, u64::MAX);
            let answer = answer.expect("no budget");
            assert_eq!((answer.number, answer.place), expected);
        }
    }
}

#[test]
fn sheets() {
    let check = |shop: &[u16], order: &[u16]| {
        compare::checks(&mut Tally::default(), shop, order, &[0]);
        liropuva::check_order(shop, order).map_err(|refusal| (refusal.number, refusal.place))
    };
    assert_eq!(check(&[256, 0, 0, 0], &[256, 0, 0]), Ok(()));
    assert_eq!(check(&[257, 0, 0, 0], &[257, 0, 0]), Err((2, 0)));
    let rows = vec![(1, 0); 4001];
    assert_eq!(check(&sheet(&[1, 0, 0], &rows), &[1, 0, 0]), Err((2, 0)));
    let after_itself = sheet(&[1, 1], &[(7, 0), (11, 0), (8, 0)]);
    assert_eq!(check(&[1, 0, 0, 0], &after_itself), Err((15, 1)));
    let after_itself = sheet(&[1, 0, 1], &[(2, 0), (7, 0), (11, 0), (8, 0)]);
    assert_eq!(check(&after_itself, &[1, 0, 0]), Err((5, 2)));
    let both_signs = sheet(&[1, 1, 0], &[(1, 0), (5, 0), (6, 0)]);
    assert_eq!(check(&both_signs, &[1, 0, 0]), Err((6, 2)));
}
