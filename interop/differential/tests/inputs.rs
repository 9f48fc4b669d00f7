//! The inputs of the benchmarks are what their names say.

use differential::compare::{self, Lent, Tally};
use differential::draft::{Step, trace_words};
use differential::inputs::{self, Replay, Search};
use differential::random::Random;
use reference::tag;

/// A search that tries more steps than this on the reference side is not compared.
const STEPS_TRIED: u64 = 20_000;

fn find(name: &str) -> Search {
    let mut searches = inputs::searches().into_iter();
    let found = searches.find(|input| input.name.contains(name));
    found.unwrap_or_else(|| panic!("no search is named {name}"))
}

/// Does this trace, of as many steps as the search may take, lead to the goals?
fn assert_accepted(name: &str, moves: &[u16]) {
    let Search {
        shop, order, depth, ..
    } = find(name);
    let steps: Vec<Step> = moves.iter().map(|&word| (0, word)).collect();
    let trace = trace_words(&steps);
    let (mut tally, mut random) = (Tally::default(), Random::new(1));
    let replayed = compare::replay(&mut tally, &mut random, &shop, &order, &trace, steps.len());
    let answer = replayed.answer;
    assert_eq!((answer.number, answer.place), (0, depth), "{name}");
}

#[test]
fn both_sides_agree_where_the_search_ends_soon() {
    let (mut tally, mut random) = (Tally::default(), Random::new(1));
    for input in inputs::searches() {
        compare::checks(&mut tally, &input.shop, &input.order, &[0]);
        assert_eq!(liropuva::check_order(&input.shop, &input.order), Ok(()));
        let sheets = (&input.shop[..], &input.order[..]);
        for depth in 0..=input.depth {
            let room = 1 + 2 * depth as usize;
            let answer = compare::search(&mut tally, &mut random, sheets, depth, room, STEPS_TRIED);
            let Some(answer) = answer else { break };
            let none = input.name.contains("none");
            assert!(!none || answer.number == 43, "{}", input.name);
        }
    }
    for input in inputs::checks() {
        compare::checks(&mut tally, &input.shop, &input.order, &[0]);
    }
    for input in inputs::replays() {
        let room = input.trace.len();
        let (shop, order, trace) = (&input.shop, &input.order, &input.trace);
        let replayed = compare::replay(&mut tally, &mut random, shop, order, trace, room);
        assert!(replayed.accepted(), "{}", input.name);
    }
    for input in inputs::joins() {
        let lent = Lent::new(&mut random, liropuva::JOIN_ROOM);
        let (shop, first, second) = (&input.shop, &input.first, &input.second);
        let joined = compare::join(&mut tally, &lent, shop, first, second);
        assert!(joined.sheet().is_some(), "{}", input.name);
    }
}

#[test]
fn the_sheets_have_the_rows_that_are_said() {
    let sizes = |name: &str| find(name).shop[..4].to_vec();
    assert_eq!(sizes("127 methods")[2..], [127, 2_186]);
    assert_eq!(sizes("23 rows")[3], 23);
    assert_eq!(sizes("16 goals, two achievers each")[1], 32);
}

fn find_replay(name: &str) -> Replay {
    let mut replays = inputs::replays().into_iter();
    let found = replays.find(|input| input.name.contains(name));
    found.unwrap_or_else(|| panic!("no replay is named {name}"))
}

/// Behind each row with the first tag, up to the next of them, how many rows have
/// one of the others? The sheet begins with so many sizes.
fn rows_behind(sheet: &[u16], sizes: usize, first: u16, others: &[u16]) -> Vec<usize> {
    let rows = usize::from(sheet[sizes - 1]);
    let tags = &sheet[sizes..sizes + rows];
    let parts = tags.split(|&tag| tag == first).skip(1);
    let count = |part: &[u16]| part.iter().filter(|tag| others.contains(tag)).count();
    parts.map(count).collect()
}

/// Needs and effects of each action, alternatives of each goal, and rows of each
/// alternative.
#[test]
fn the_replays_have_the_effects_and_rows_that_are_said() {
    let sizes = |name: &str| {
        let Replay { shop, order, .. } = find_replay(name);
        let needs = [tag::NEEDS_TRUE, tag::NEEDS_FALSE];
        let effects = [tag::MAKES_TRUE, tag::MAKES_FALSE];
        let wanted = [tag::WANTED_TRUE, tag::WANTED_FALSE];
        [
            rows_behind(&shop, 4, tag::ACTION, &needs),
            rows_behind(&shop, 4, tag::ACTION, &effects),
            rows_behind(&order, 3, tag::NODE, &[tag::ALTERNATIVE]),
            rows_behind(&order, 3, tag::ALTERNATIVE, &wanted),
        ]
    };
    assert_eq!(
        sizes("256 effects, 15 alternatives of 255 rows"),
        [vec![255], vec![256], vec![15], vec![255; 15]]
    );
    assert_eq!(
        sizes("1 effect, 1,999 alternatives"),
        [vec![0], vec![1], vec![1_999], vec![1; 1_999]]
    );
    assert_eq!(
        sizes("2 effects, 19 goals of 200 rows"),
        [vec![0; 19], vec![2; 19], vec![1; 19], vec![200; 19]]
    );
    assert_eq!(
        sizes("250 effects, 25 goals of 1 row"),
        [vec![0], vec![250], vec![1; 25], vec![1; 25]]
    );
}

/// Actions at the goals in turn, so that where there are several no step asks about
/// the goal of the step before it; then each goal's release.
#[test]
fn the_actions_go_over_the_goals_in_turn() {
    for (name, goals) in [
        ("15 alternatives of 255 rows", 1),
        ("1,999 alternatives", 1),
        ("19 goals of 200 rows", 19),
        ("25 goals of 1 row", 25),
    ] {
        let Replay { order, trace, .. } = find_replay(name);
        assert_eq!((order[1], trace[0]), (goals, 4_096), "{name}");
        let (moves, places) = trace[1..].split_at(4_096);
        let (actions, releases) = moves.split_at(usize::from(4_096 - goals));
        assert!(
            actions.iter().all(|word| (1..=255).contains(word)),
            "{name}"
        );
        assert!(releases.iter().all(|&word| word == 0), "{name}");
        let in_turn = (0..goals).cycle().take(actions.len());
        assert!(
            places[..actions.len()].iter().copied().eq(in_turn),
            "{name}"
        );
    }
}

/// Goals and rows of the first order, of the second, and of their join.
#[test]
fn the_joined_orders_have_the_sizes_that_are_said() {
    let sizes = |name: &str| {
        let mut joins = inputs::joins().into_iter();
        let found = joins.find(|input| input.name.contains(name));
        let input = found.unwrap_or_else(|| panic!("no join is named {name}"));
        let mut room = [0; liropuva::JOIN_ROOM];
        let joined = liropuva::join(&input.shop, &input.first, &input.second, &mut room);
        let joined = joined.expect(name).sheet(&room);
        [&input.first, &input.second, joined].map(|words| [words[1], words[2]])
    };
    let wide = sizes("two orders of 2,000 rows");
    assert_eq!(wide, [[8, 2_000], [8, 2_000], [16, 4_000]]);
    // 31 rows of each order are 11 rows; 1,024 come in.
    let cores = sizes("32 goals each");
    assert_eq!(cores, [[32, 127], [32, 127], [64, 1_278]]);
}

/// Core after core: its method, then action and release four times, its release.
#[test]
fn cores_in_turn_need_ten_steps_each() {
    let core = |method: u16, actions: [u16; 4]| {
        let mut moves = vec![256 + method];
        moves.extend(actions.iter().flat_map(|&action| [action, 0]));
        moves.push(0);
        moves
    };
    let [first, second, third] = [[1, 2, 3, 4], [5, 6, 7, 8], [9, 10, 11, 12]];
    let cores = [core(0, first), core(2, second)].concat();
    assert_accepted("two cores, two methods each", &cores);
    let cores = [core(1, first), core(3, second), core(5, third)].concat();
    assert_accepted("three cores, one stage, two methods", &cores);
    let cores = [core(0, first), core(1, second)].concat();
    assert_accepted("two cores, two clamps each", &cores);
    // The second clamps stand behind all other actions.
    let cores = [core(0, [9, 2, 3, 4]), core(1, [10, 6, 7, 8])].concat();
    assert_accepted("two cores, two clamps each", &cores);
}

/// Where the clamps are shared, a second core takes the first off.
#[test]
fn one_stage_holds_one_core() {
    let Search { shop, order, .. } = find("three cores, one stage, two methods");
    // Both cores' methods, and both clamped before the first is scanned.
    let steps = [(0, 256), (0, 1), (5, 258), (5, 5), (0, 0)];
    let mut random = Random::new(1);
    let trace = trace_words(&steps);
    let replayed = compare::replay(&mut Tally::default(), &mut random, &shop, &order, &trace, 5);
    let answer = replayed.answer;
    assert_eq!((answer.number, answer.place), (29, 4));
}

/// Package after package: its method, the truck is there, load, drive, unload.
#[test]
fn the_truck_needs_nine_steps_a_package() {
    let package = |package: u16, drive: u16| {
        let from = package;
        let to = (package + 1) % 3;
        // Six drives, then for each package and place load and unload.
        let load = 7 + 6 * package + 2 * from;
        let unload = 8 + 6 * package + 2 * to;
        vec![256 + package, 0, load, 0, drive, 0, unload, 0, 0]
    };
    // Drives: 0 to 1, 0 to 2, 1 to 0, 1 to 2, 2 to 0, 2 to 1.
    let moves = [package(0, 1), package(1, 4), package(2, 5)].concat();
    assert_accepted("one truck, three packages", &moves);
}

/// The second action of each goal, and its release.
#[test]
fn a_goal_with_two_achievers_needs_two_steps() {
    let moves: Vec<u16> = (0..16).flat_map(|goal| [2 + 2 * goal, 0]).collect();
    assert_accepted("16 goals, two achievers each", &moves);
}
