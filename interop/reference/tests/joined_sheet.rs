//! The join of two orders written as a sheet, by document 01 and Req 02 of
//! document 02.

use reference::{Network, Refusal, Shop, join};

type Row = (u16, u16);

/// What stands in a room before a call.
const UNTOUCHED: u16 = 0xa55a;

/// A shop of this many atoms and nothing else.
fn shop(atoms: u16) -> [u16; 4] {
    [atoms, 0, 0, 0]
}

fn order(atoms: u16, rows: &[Row]) -> Vec<u16> {
    let goals = rows.iter().filter(|row| row.0 == 7).count();
    let mut words = vec![atoms, goals as u16, rows.len() as u16];
    words.extend(rows.iter().map(|row| row.0));
    words.extend(rows.iter().map(|row| row.1));
    words
}

/// So many goals of one empty alternative each.
fn goals(count: usize) -> Vec<Row> {
    [(7, 0), (8, 0)].repeat(count)
}

/// One goal of so many empty alternatives.
fn alternatives(count: usize) -> Vec<Row> {
    [vec![(7, 0)], vec![(8, 0); count]].concat()
}

/// So many start rows.
fn starts(count: u16) -> Vec<Row> {
    (0..count).map(|atom| (12, atom)).collect()
}

/// The join in a room of so many words; the words behind it must be untouched,
/// and all of them where it is refused.
fn joined(
    shop: &[u16],
    first: &[u16],
    second: &[u16],
    words: usize,
) -> Result<Vec<u16>, (u16, usize)> {
    let mut room = vec![UNTOUCHED; words];
    let written = match join(shop, first, second, &mut room) {
        Ok(written) => written,
        Err(Refusal { number, place }) => {
            assert_eq!(room, vec![UNTOUCHED; words]);
            return Err((number, place));
        }
    };
    assert!(room[written..].iter().all(|&word| word == UNTOUCHED));
    room.truncate(written);
    Ok(room)
}

/// The join with room for every sheet, of 256 atoms.
fn joined_rows(first: &[Row], second: &[Row]) -> Result<Vec<u16>, (u16, usize)> {
    joined(&shop(256), &order(256, first), &order(256, second), 8003)
}

#[test]
fn afters_come_in_and_are_raised() {
    let first = [(12, 1), (7, 0), (8, 0), (9, 0), (7, 0), (11, 0), (8, 0)];
    let second = [
        (12, 0),
        (12, 2),
        (7, 0),
        (8, 0),
        (10, 1),
        (7, 0),
        (11, 0),
        (8, 0),
        (8, 0),
        (9, 2),
    ];
    let behind = [
        (7, 0),
        (11, 0),
        (11, 1),
        (8, 0),
        (10, 1),
        (7, 0),
        (11, 0),
        (11, 1),
        (11, 2),
        (8, 0),
        (8, 0),
        (9, 2),
    ];
    let expected = order(256, &[&first[..], &behind].concat());
    assert_eq!(joined_rows(&first, &second), Ok(expected));
}

#[test]
fn an_order_without_goals_on_either_side() {
    let goal = [(12, 3), (7, 0), (8, 0), (9, 1)];
    let none = [(12, 0), (12, 2)];
    assert_eq!(joined_rows(&goal, &none), Ok(order(256, &goal)));
    let expected = order(256, &[&none[..], &goal[1..]].concat());
    assert_eq!(joined_rows(&none, &goal), Ok(expected));
    assert_eq!(joined_rows(&none, &none), Ok(order(256, &none)));
    assert_eq!(joined_rows(&[], &[]), Ok(vec![256, 0, 0]));
}

#[test]
fn at_most_64_goals() {
    for (first, second, number) in [
        (32, 32, None),
        (64, 0, None),
        (0, 64, None),
        (33, 32, Some(81)),
        (64, 1, Some(81)),
        (1, 64, Some(81)),
    ] {
        let joined = joined_rows(&goals(first), &goals(second));
        match number {
            None => assert_eq!(joined.unwrap()[1], 64),
            Some(number) => assert_eq!(joined, Err((number, 0))),
        }
    }
}

#[test]
fn at_most_4000_rows_that_come_out() {
    let size = |first: &[Row], second: &[Row]| joined_rows(first, second).map(|words| words[2]);
    // One 11 row comes in.
    assert_eq!(size(&alternatives(1997), &alternatives(2000)), Ok(4000));
    let full = size(&alternatives(1998), &alternatives(2000));
    assert_eq!(full, Err((82, 0)));
    // 1,024 come in.
    let first = [goals(31), alternatives(2849)].concat();
    assert_eq!(size(&first, &goals(32)), Ok(4000));
    let first = [goals(31), alternatives(2850)].concat();
    assert_eq!(size(&first, &goals(32)), Err((82, 0)));
    // The second's start rows do not count, the first's do.
    let [many, few] = [alternatives(2000), alternatives(1997)];
    assert_eq!(size(&few, &[starts(256), many.clone()].concat()), Ok(4000));
    let first = [starts(1), few].concat();
    assert_eq!(size(&first, &many), Err((82, 0)));
}

#[test]
fn room_for_the_sheet_that_comes_out() {
    let core = [4, 1, 3, 7, 8, 9, 0, 0, 3];
    let expected = vec![4, 2, 7, 7, 8, 9, 7, 11, 8, 9, 0, 0, 3, 0, 0, 0, 3];
    for words in [17, 18, 8003] {
        let joined = joined(&shop(4), &core, &core, words);
        assert_eq!(joined.as_ref(), Ok(&expected));
    }
    for words in [0, 2, 3, 16] {
        assert_eq!(joined(&shop(4), &core, &core, words), Err((83, 0)));
    }
}

#[test]
fn the_questions_in_turn() {
    let bad_tag = order(4, &[(7, 0), (8, 0), (9, 1), (1, 0)]);
    let bad_value = order(4, &[(7, 0), (8, 0), (9, 4)]);
    let other_atoms = order(5, &[]);
    let [many, one] = [goals(64), goals(1)].map(|rows| order(4, &rows));
    let full = order(4, &alternatives(3999));
    let refused = |shop: &[u16], first: &[u16], second: &[u16]| joined(shop, first, second, 0);
    let shop = shop(4);
    assert_eq!(refused(&[4, 0, 0], &bad_tag, &bad_tag), Err((1, 0)));
    assert_eq!(refused(&shop, &bad_tag, &bad_value), Err((14, 3)));
    assert_eq!(refused(&shop, &bad_value, &bad_tag), Err((15, 2)));
    assert_eq!(refused(&shop, &one, &bad_tag), Err((14, 3)));
    assert_eq!(refused(&shop, &many, &bad_value), Err((15, 2)));
    assert_eq!(refused(&shop, &one, &other_atoms), Err((12, 0)));
    // 65 goals and 4,000 rows or more; too many rows; no room.
    assert_eq!(refused(&shop, &full, &many), Err((81, 0)));
    assert_eq!(refused(&shop, &full, &one), Err((82, 0)));
    assert_eq!(refused(&shop, &one, &one), Err((83, 0)));
}

#[test]
fn the_written_sheet_is_the_join_as_a_network() {
    let shop_words = shop(256);
    let first = order(256, &[starts(3), goals(2), alternatives(3)].concat());
    let second = order(
        256,
        &[starts(9), goals(1), vec![(7, 0), (11, 0), (8, 0)]].concat(),
    );
    let written = joined(&shop_words, &first, &second, 8003).unwrap();
    let shop = Shop::read(&shop_words).unwrap();
    let [first, second, written] =
        [first, second, written].map(|words| Network::read(&shop, &words).unwrap());
    assert!(written == Network::join(&first, &second));
}

#[test]
fn three_orders_in_either_grouping() {
    let shop = shop(256);
    let with = |first: &[u16], second: &[u16]| joined(&shop, first, second, 8003);
    let a = order(256, &[starts(2), goals(2)].concat());
    let b = order(
        256,
        &[starts(5), goals(1), vec![(7, 0), (11, 0), (8, 0)]].concat(),
    );
    let c = order(256, &[starts(1), goals(1), alternatives(4)].concat());
    let left = with(&with(&a, &b).unwrap(), &c);
    assert_eq!(left, with(&a, &with(&b, &c).unwrap()));
    assert_eq!(left.unwrap()[..3], [256, 6, 30]);
    // The start rows of b alone keep b with c from being written.
    let a = order(256, &goals(1));
    let b = order(256, &[starts(256), alternatives(3700)].concat());
    let c = order(256, &alternatives(100));
    let left = with(&with(&a, &b).unwrap(), &c);
    assert_eq!(left.unwrap()[..3], [256, 3, 3807]);
    assert_eq!(with(&b, &c), Err((82, 0)));
}
