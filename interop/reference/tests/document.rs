//! The cases of document 01, marked and unmarked, and which atom a replay names.

use reference::{Budget, Refusal, ReplayRefusal, Stopped};
use reference::{check_order, check_shop, check_trace, replay, search};
use words::sheet;

mod words;

const CORE_ROWS: [(u16, u16); 28] = [
    (1, 3),
    (5, 0),
    (6, 2),
    (1, 10),
    (3, 0),
    (5, 1),
    (1, 3),
    (3, 1),
    (6, 0),
    (5, 2),
    (1, 10),
    (3, 2),
    (5, 3),
    (2, 0),
    (7, 0),
    (8, 0),
    (9, 0),
    (7, 0),
    (11, 0),
    (8, 0),
    (9, 1),
    (7, 0),
    (11, 1),
    (8, 0),
    (9, 2),
    (7, 0),
    (8, 0),
    (9, 3),
];

fn trace(steps: &[(u16, u16)]) -> Vec<u16> {
    sheet(&[], steps)
}

fn core_shop() -> Vec<u16> {
    sheet(&[4, 4, 1], &CORE_ROWS)
}

fn core_order() -> Vec<u16> {
    vec![4, 1, 3, 7, 8, 9, 0, 0, 3]
}

fn core_steps() -> Vec<(u16, u16)> {
    [256, 1, 0, 2, 0, 3, 0, 4, 0, 0]
        .map(|word| (word, 0))
        .to_vec()
}

fn refused(number: u16, place: usize) -> Refusal {
    Refusal { number, place }
}

/// A replay's refusal that names no atom.
fn unnamed(number: u16, place: usize) -> ReplayRefusal {
    refused(number, place).into()
}

/// A replay's refusal that names an atom.
fn named(number: u16, place: usize, atom: u16) -> ReplayRefusal {
    ReplayRefusal {
        unmet: Some(atom),
        ..unnamed(number, place)
    }
}

/// Refused on the long core, with the room left alone.
fn core_refusal(steps: &[(u16, u16)]) -> ReplayRefusal {
    let mut plan = [7; 100];
    let refusal = replay(&core_shop(), &core_order(), &trace(steps), &mut plan).unwrap_err();
    assert_eq!(plan, [7; 100]);
    refusal
}

#[test]
fn the_long_core_is_accepted() {
    let mut plan = [7; 11];
    let words = trace(&core_steps());
    let accepted = replay(&core_shop(), &core_order(), &words, &mut plan).unwrap();
    assert_eq!(
        (accepted.steps, accepted.plan_count, accepted.cost),
        (10, 4, 26)
    );
    assert_eq!(accepted.state.iter().collect::<Vec<_>>(), [1, 2, 3]);
    assert_eq!(plan, [1, 2, 3, 4, 7, 7, 7, 7, 7, 7, 7]);
    assert_eq!(check_trace(&core_shop(), &core_order(), &words), Ok(()));
}

#[test]
fn the_long_core_with_a_step_less_or_more() {
    let mut steps = core_steps();
    steps.push((0, 0));
    assert_eq!(core_refusal(&steps), unnamed(25, 10));
    steps.truncate(9);
    assert_eq!(core_refusal(&steps), unnamed(33, 9));
}

#[test]
fn the_plan_room_must_hold_as_many_words_as_steps() {
    let words = trace(&core_steps());
    let replayed = replay(&core_shop(), &core_order(), &words, &mut [7; 9]);
    assert_eq!(replayed, Err(unnamed(24, 0)));
}

#[test]
fn no_goals_and_no_steps() {
    let accepted = replay(&core_shop(), &[4, 0, 0], &[0], &mut []).unwrap();
    assert_eq!(
        (accepted.steps, accepted.plan_count, accepted.cost),
        (0, 0, 0)
    );
    assert_eq!(accepted.state, reference::Atoms::EMPTY);
    let mut room = [7; 3];
    assert_eq!(search(&core_shop(), &[4, 0, 0], 0, &mut room), Ok(0));
    assert_eq!(room, [0, 7, 7]);
}

#[test]
fn the_first_step_alone() {
    assert_eq!(core_refusal(&[(4, 0)]), named(30, 0, 2));
    assert_eq!(core_refusal(&[(1, 0)]), unnamed(31, 0));
    assert_eq!(core_refusal(&[(5, 0)]), unnamed(26, 0));
    assert_eq!(core_refusal(&[(0, 0)]), named(29, 0, 3));
    assert_eq!(core_refusal(&[(255, 0)]), unnamed(26, 0));
    assert_eq!(core_refusal(&[(257, 0)]), unnamed(26, 0));
    assert_eq!(core_refusal(&[(65535, 0)]), unnamed(26, 0));
}

#[test]
fn places_behind_a_method() {
    assert_eq!(core_refusal(&[(256, 0), (0, 4)]), unnamed(28, 1));
    assert_eq!(core_refusal(&[(256, 0), (0, 5)]), unnamed(25, 1));
}

#[test]
fn relevance_looks_at_all_alternatives_together() {
    let shop = sheet(&[2, 1, 0], &[(1, 0), (5, 0)]);
    let order = sheet(&[2, 1], &[(7, 0), (8, 0), (9, 0), (8, 0), (10, 0), (9, 1)]);
    let replayed = replay(&shop, &order, &trace(&[(1, 0)]), &mut [0]);
    assert_eq!(replayed, Err(unnamed(31, 0)));
}

/// One step of action 1 or of method 0, which both have these needs and are for
/// the one goal. From the atoms 1 and 3 of 256.
fn needs_refusal(needs: &[(u16, u16)], word: u16) -> ReplayRefusal {
    let action = [&[(1, 0)], needs, &[(5, 7)]].concat();
    // The method's first node wants what its needs do not say.
    let nodes = [(7, 0), (8, 0), (9, 200), (7, 0), (8, 0), (9, 7)];
    let method = [&[(2, 0)], needs, &nodes].concat();
    let shop = sheet(&[256, 1, 1], &[action, method].concat());
    let order = sheet(&[256, 1], &[(12, 1), (12, 3), (7, 0), (8, 0), (9, 7)]);
    replay(&shop, &order, &trace(&[(word, 0)]), &mut [0]).unwrap_err()
}

#[test]
fn the_first_unmet_need_is_named() {
    for word in [1, 256] {
        let atom = |needs: &[_]| {
            let refusal = needs_refusal(needs, word);
            assert_eq!((refusal.number, refusal.place), (30, 0));
            refusal.unmet.expect("30 names an atom")
        };
        assert_eq!(atom(&[(3, 0), (3, 1), (3, 3)]), 0);
        assert_eq!(atom(&[(3, 1), (3, 2), (3, 3)]), 2);
        assert_eq!(atom(&[(3, 1), (3, 3), (3, 255)]), 255);
        assert_eq!(atom(&[(3, 1), (3, 4), (3, 5)]), 4);
        assert_eq!(atom(&[(4, 0), (4, 1), (3, 2)]), 1);
        assert_eq!(atom(&[(4, 2), (3, 3), (3, 64)]), 64);
    }
}

/// A release of a goal with these alternatives from the atoms 1 and 3 of 256.
fn goal_refusal(alternatives: &[&[(u16, u16)]]) -> Result<usize, ReplayRefusal> {
    let mut rows = vec![(12, 1), (12, 3), (7, 0)];
    for alternative in alternatives {
        rows.push((8, 0));
        rows.extend_from_slice(alternative);
    }
    let order = sheet(&[256, 1], &rows);
    let replayed = replay(&[256, 0, 0, 0], &order, &trace(&[(0, 0)]), &mut [0]);
    replayed.map(|accepted| accepted.steps)
}

#[test]
fn the_first_unmet_row_of_the_first_alternative_is_named() {
    assert_eq!(goal_refusal(&[&[(9, 0)]]), Err(named(29, 0, 0)));
    assert_eq!(goal_refusal(&[&[(10, 1), (9, 2)]]), Err(named(29, 0, 1)));
    assert_eq!(goal_refusal(&[&[(9, 1), (9, 255)]]), Err(named(29, 0, 255)));
    // The second lacks one row, the first two.
    let second_nearer: [&[_]; 2] = [&[(9, 4), (9, 5)], &[(9, 1), (9, 2), (9, 3)]];
    assert_eq!(goal_refusal(&second_nearer), Err(named(29, 0, 4)));
    let third_nearer: [&[_]; 3] = [&[(9, 1), (9, 6), (9, 7)], &[(10, 1)], &[(9, 0)]];
    assert_eq!(goal_refusal(&third_nearer), Err(named(29, 0, 6)));
    // The last one holds.
    assert_eq!(goal_refusal(&[&[(9, 0)], &[(10, 3)], &[(9, 1)]]), Ok(1));
}

/// A method's nodes stand in the shop sheet; an earlier node has other
/// alternatives.
#[test]
fn the_atom_of_a_node_that_does_not_hold() {
    let first = [(7, 0), (8, 0), (8, 0), (9, 4)];
    let second = [(7, 0), (11, 0), (8, 0), (9, 1), (9, 2), (8, 0), (9, 3)];
    let last = [(7, 0), (8, 0), (9, 0)];
    let shop = sheet(
        &[5, 0, 1],
        &[&[(2, 0)][..], &first, &second, &last].concat(),
    );
    let order = sheet(&[5, 1], &[(12, 1), (7, 0), (8, 0), (9, 0)]);
    let words = trace(&[(256, 0), (0, 0), (0, 0)]);
    let replayed = replay(&shop, &order, &words, &mut [0; 3]);
    assert_eq!(replayed, Err(named(29, 2, 2)));
}

#[test]
fn sixty_four_may_wait() {
    let shop = sheet(&[1, 0, 1], &[(2, 0), (7, 0), (8, 0), (9, 0)]);
    let order = sheet(&[1, 1], &[(7, 0), (8, 0), (9, 0)]);
    let mut plan = [0; 64];
    let replayed = replay(&shop, &order, &trace(&[(256, 0); 63]), &mut plan);
    assert_eq!(replayed, Err(unnamed(33, 63)));
    let replayed = replay(&shop, &order, &trace(&[(256, 0); 64]), &mut plan);
    assert_eq!(replayed, Err(unnamed(32, 63)));
}

#[test]
fn the_search_finds_the_long_core() {
    let mut room = [7; 25];
    assert_eq!(search(&core_shop(), &core_order(), 10, &mut room), Ok(10));
    assert_eq!(room[..21], trace(&core_steps()));
    assert_eq!(room[21..], [7; 4]);
}

#[test]
fn the_search_refuses() {
    let mut room = [7; 65];
    let mut refusal =
        |depth, words| search(&core_shop(), &core_order(), depth, &mut room[..words]).unwrap_err();
    assert_eq!(refusal(9, 65), refused(43, 0));
    assert_eq!(refusal(33, 65), refused(41, 0));
    assert_eq!(refusal(33, 0), refused(41, 0));
    assert_eq!(refusal(65_536 + 10, 65), refused(41, 0));
    assert_eq!(refusal(u32::MAX, 65), refused(41, 0));
    assert_eq!(refusal(10, 20), refused(42, 0));
    assert_eq!(refusal(0, 0), refused(42, 0));
    assert_eq!(room, [7; 65]);
}

#[test]
fn the_search_stops_when_its_budget_is_spent() {
    let (shop, order) = (core_shop(), core_order());
    let stopped = reference::search_within(&shop, &order, 10, &mut [0; 21], Budget::steps(5));
    assert_eq!(stopped, Err(Stopped::BudgetSpent));
}

#[test]
fn sizes_of_a_shop_sheet() {
    assert_eq!(check_shop(&[]), Err(refused(1, 0)));
    assert_eq!(check_shop(&[1, 0, 0]), Err(refused(1, 0)));
    assert_eq!(check_shop(&[256, 0, 0, 0]), Ok(()));
    assert_eq!(check_shop(&[257, 0, 0, 0]), Err(refused(2, 0)));
    assert_eq!(check_shop(&[0, 0, 0, 0]), Err(refused(2, 0)));
    assert_eq!(check_shop(&[1, 256, 0, 0]), Err(refused(2, 0)));
    assert_eq!(check_shop(&[1, 0, 256, 0]), Err(refused(2, 0)));
    assert_eq!(check_shop(&[1, 0, 0, 4001]), Err(refused(2, 0)));
    assert_eq!(check_shop(&[1, 0, 0, 4000]), Err(refused(3, 0)));
    assert_eq!(check_shop(&[1, 0, 0, 0, 0]), Err(refused(3, 0)));
    assert_eq!(check_shop(&[1, 1, 0, 0]), Err(refused(8, 0)));
}

#[test]
fn rows_of_a_shop_sheet() {
    let check = |rows: &[_]| check_shop(&sheet(&[2, 1, 0], rows));
    assert_eq!(check(&[(1, 65535), (5, 0), (6, 1)]), Ok(()));
    assert_eq!(check(&[(5, 0)]), Err(refused(4, 0)));
    assert_eq!(check(&[(1, 0), (13, 0)]), Err(refused(4, 1)));
    assert_eq!(check(&[(1, 0), (17, 0)]), Err(refused(4, 1)));
    assert_eq!(check(&[(1, 0), (5, 0), (3, 0)]), Err(refused(4, 2)));
    assert_eq!(check(&[(1, 0), (3, 2)]), Err(refused(5, 1)));
    assert_eq!(check(&[(1, 0), (5, 0), (6, 0)]), Err(refused(6, 2)));
    assert_eq!(check(&[(1, 0), (3, 1), (4, 0)]), Err(refused(6, 2)));
    assert_eq!(check(&[(1, 0), (3, 1), (5, 0)]), Ok(()));
    assert_eq!(check(&[(1, 0), (2, 0)]), Err(refused(7, 0)));
    assert_eq!(check(&[(1, 0), (1, 0)]), Err(refused(8, 0)));
}

#[test]
fn methods_of_a_shop_sheet() {
    let check = |rows: &[_]| check_shop(&sheet(&[2, 0, 1], rows));
    assert_eq!(check(&[(2, 0), (7, 0), (8, 0)]), Ok(()));
    assert_eq!(check(&[(2, 0), (3, 0), (8, 0)]), Err(refused(4, 2)));
    assert_eq!(check(&[(2, 0), (3, 0)]), Err(refused(7, 0)));
    assert_eq!(check(&[(2, 0), (7, 0)]), Err(refused(7, 0)));
    assert_eq!(check(&[(2, 1)]), Err(refused(5, 0)));
    // An after that names its own node.
    assert_eq!(check(&[(2, 0), (7, 0), (11, 0)]), Err(refused(5, 2)));
    // An action behind a method.
    assert_eq!(check(&[(2, 0), (7, 0), (8, 0), (1, 0)]), Err(refused(4, 3)));
    // Two alternatives in the last node; an after in it.
    let first = [(2, 0), (7, 0), (8, 0)];
    assert_eq!(check(&[&first[..], &[(8, 0)]].concat()), Err(refused(9, 0)));
    let after = [(7, 0), (11, 0), (8, 0)];
    assert_eq!(check(&[&first[..], &after].concat()), Err(refused(9, 0)));
    // Nodes are numbered within their method.
    let second = check_shop(&sheet(
        &[2, 0, 2],
        &[&first[..], &[(2, 0)], &after].concat(),
    ));
    assert_eq!(second, Err(refused(5, 5)));
}

#[test]
fn a_method_has_at_most_63_nodes() {
    for nodes in [63, 64] {
        let mut rows = vec![(2, 0), (7, 0), (8, 0), (2, 0)];
        rows.extend([(7, 0), (8, 0)].repeat(nodes));
        let expected = if nodes == 63 {
            Ok(())
        } else {
            Err(refused(9, 1))
        };
        assert_eq!(check_shop(&sheet(&[1, 0, 2], &rows)), expected);
    }
}

#[test]
fn order_sheets() {
    let check = |order: &[u16]| check_order(&core_shop(), order);
    let rows = |rows: &[_]| check(&sheet(&[4, 1], rows));
    assert_eq!(check(&[4, 1]), Err(refused(11, 0)));
    assert_eq!(check(&[5, 0, 0]), Err(refused(12, 0)));
    assert_eq!(check(&[4, 65, 0]), Err(refused(12, 0)));
    assert_eq!(check(&[4, 0, 4001]), Err(refused(12, 0)));
    assert_eq!(check(&[4, 0, 1]), Err(refused(13, 0)));
    assert_eq!(check(&[4, 1, 0]), Err(refused(18, 0)));
    assert_eq!(rows(&[(12, 0), (12, 3), (7, 0), (8, 0)]), Ok(()));
    assert_eq!(rows(&[(12, 0), (8, 0)]), Err(refused(14, 1)));
    assert_eq!(rows(&[(1, 0)]), Err(refused(14, 0)));
    assert_eq!(rows(&[(12, 4)]), Err(refused(15, 0)));
    assert_eq!(rows(&[(12, 1), (12, 1)]), Err(refused(16, 1)));
    assert_eq!(rows(&[(12, 1), (7, 0)]), Err(refused(17, 0)));
    assert_eq!(rows(&[(7, 0), (8, 0), (2, 0)]), Err(refused(14, 2)));
    assert_eq!(rows(&[(12, 1)]), Err(refused(18, 0)));
}

#[test]
fn traces() {
    let check = |trace: &[u16]| check_trace(&core_shop(), &core_order(), trace);
    assert_eq!(check(&[]), Err(refused(21, 0)));
    assert_eq!(check(&[4097]), Err(refused(22, 0)));
    assert_eq!(check(&[1, 0]), Err(refused(23, 0)));
    assert_eq!(check(&[0, 0]), Err(refused(23, 0)));
    assert_eq!(check(&trace(&[(9, 9); 4096])), Ok(()));
}

#[test]
fn sheets_are_asked_in_order() {
    assert_eq!(check_trace(&[], &[], &[]), Err(refused(1, 0)));
    assert_eq!(check_trace(&core_shop(), &[], &[]), Err(refused(11, 0)));
    assert_eq!(search(&core_shop(), &[], 33, &mut []), Err(refused(11, 0)));
    let replayed = replay(&core_shop(), &core_order(), &[], &mut []);
    assert_eq!(replayed, Err(unnamed(21, 0)));
}
