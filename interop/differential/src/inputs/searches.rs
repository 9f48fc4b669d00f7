//! What is searched.

use reference::MAX_DEPTH;

use super::{Search, goals, search, switch};
use crate::cores;
use crate::draft::{Action, Method, Node, Order, Shop};

pub fn searches() -> Vec<Search> {
    let unordered = |cores| cores::order(cores, false);
    let one_stage = cores::on_one_stage(cores::with_two_methods(cores::shop(3)));
    let two_methods = cores::with_two_methods(cores::shop(2));
    let two_clamps = cores::with_two_clamps(cores::shop(2));
    vec![
        core_search(1, false, 10),
        core_search(1, false, 9),
        core_search(2, true, 20),
        core_search(2, true, 19),
        core_search(2, false, 20),
        core_search(2, false, 19),
        core_search(3, true, 30),
        core_search(3, false, 30),
        core_search(3, false, MAX_DEPTH),
        core_search(3, false, 29),
        search(
            "two cores, two methods each",
            (two_methods, unordered(2)),
            20,
        ),
        search("two cores, two clamps each", (two_clamps, unordered(2)), 20),
        search(
            "three cores, one stage, two methods",
            (one_stage, unordered(3)),
            30,
        ),
        search("one truck, three packages", truck(), 27),
        search("16 goals, two achievers each", achievers(2), MAX_DEPTH),
        search("16 goals, 510 moves, none", hopeless(), MAX_DEPTH),
        search("127 methods, none", settings(), 11),
        search("23 rows, none", circle(), MAX_DEPTH),
    ]
}

/// A search that ends soon and goes as deep as one may: its trace has 32 steps.
pub fn deepest() -> Search {
    search("16 goals, one achiever each", achievers(1), MAX_DEPTH)
}

/// A search for this many cores; none of fewer steps than ten a core.
fn core_search(cores: u16, chained: bool, depth: u32) -> Search {
    let number = ["one core", "two cores", "three cores"][usize::from(cores) - 1];
    let kind = match (cores, chained) {
        (1, _) => "",
        (_, true) => ", chained",
        (_, false) => ", unordered",
    };
    let none = if depth < u32::from(cores * cores::STEPS_A_CORE) {
        ", none"
    } else {
        ""
    };
    let name = format!("{number}{kind}{none}");
    let sheets = (cores::shop(cores), cores::order(cores, chained));
    search(&name, sheets, depth)
}

/// Goals that many moves are relevant to, though no move's needs ever hold.
fn hopeless() -> (Shop, Order) {
    let atoms = reference::MAX_ATOMS;
    let never = vec![(atoms - 1, true)];
    let action = |n: u16| Action {
        cost: 1,
        needs: never.clone(),
        effects: vec![(n % 16, true)],
    };
    let method = |n: u16| Method {
        needs: never.clone(),
        nodes: vec![Node::wanting(&[n % 16], &[])],
    };
    let shop = Shop {
        atoms,
        actions: (0..255).map(action).collect(),
        methods: (0..255).map(method).collect(),
    };
    (shop, goals(16, atoms, false))
}

/// One truck, three places and three packages, each wanted at the place behind its
/// own (the first behind the last). A package's method brings the truck, loads,
/// drives and unloads. The truck stands where the first package does, so a drive
/// for each package is enough: 9 steps a package.
fn truck() -> (Shop, Order) {
    const PLACES: u16 = 3;
    let next = |place: u16| (place + 1) % PLACES;
    let truck_at = |place: u16| place;
    let at = |package: u16, place: u16| PLACES * (1 + package) + place;
    let inside = |package: u16| PLACES * (1 + PLACES) + package;
    let mut actions = Vec::new();
    for from in 0..PLACES {
        for to in (0..PLACES).filter(|&to| to != from) {
            let mut effects = vec![(truck_at(from), false), (truck_at(to), true)];
            effects.sort_unstable();
            actions.push(Action {
                cost: 5,
                needs: vec![(truck_at(from), true)],
                effects,
            });
        }
    }
    for package in 0..PLACES {
        for place in 0..PLACES {
            let [here, loaded] = [at(package, place), inside(package)];
            for load in [true, false] {
                actions.push(Action {
                    cost: 1,
                    needs: vec![
                        (truck_at(place), true),
                        (if load { here } else { loaded }, true),
                    ],
                    effects: vec![(here, !load), (loaded, load)],
                });
            }
        }
    }
    let method = |package: u16| Method {
        needs: vec![],
        nodes: vec![
            Node::wanting(&[truck_at(package)], &[]),
            Node::wanting(&[inside(package)], &[0]),
            Node::wanting(&[truck_at(next(package))], &[1]),
            Node::wanting(&[at(package, next(package))], &[]),
        ],
    };
    let goal = |package: u16| Node::wanting(&[at(package, next(package))], &[]);
    let atoms = inside(PLACES);
    let shop = Shop {
        atoms,
        actions,
        methods: (0..PLACES).map(method).collect(),
    };
    let mut start = vec![truck_at(0)];
    start.extend((0..PLACES).map(|package| at(package, package)));
    let order = Order {
        atoms,
        start,
        goals: (0..PLACES).map(goal).collect(),
    };
    (shop, order)
}

/// 16 goals of one atom each, and so many actions without needs for each.
fn achievers(each: u16) -> (Shop, Order) {
    let atoms = 16;
    let shop = Shop {
        atoms,
        actions: (0..each * atoms).map(|n| switch(n / each)).collect(),
        methods: vec![],
    };
    (shop, goals(atoms, atoms, false))
}

/// 127 methods for one goal that no action makes true, each by two of 229
/// settings. An action for each setting needs what is true at the start, and
/// makes false what nobody asks for. 2,186 rows.
fn settings() -> (Shop, Order) {
    let settings = 229;
    let [ready, untouched, wanted] = [settings, settings + 1, settings + 2];
    let action = |setting: u16| Action {
        cost: 1,
        needs: vec![(ready, true)],
        effects: vec![(setting, true), (untouched, false)],
    };
    let method = |n: u16| Method {
        needs: vec![],
        nodes: [n, n + 100, wanted]
            .map(|atom| Node::wanting(&[atom], &[]))
            .to_vec(),
    };
    let shop = Shop {
        atoms: settings + 3,
        actions: (0..settings).map(action).collect(),
        methods: (0..127).map(method).collect(),
    };
    let order = Order {
        atoms: shop.atoms,
        start: vec![ready],
        goals: vec![Node::wanting(&[wanted], &[])],
    };
    (shop, order)
}

/// Two goals with a method each that asks for the other goal first, and for what
/// one action makes, which needs the first goal: nothing can begin. 23 rows.
fn circle() -> (Shop, Order) {
    let method = |nodes: [u16; 3]| Method {
        needs: vec![],
        nodes: nodes.map(|atom| Node::wanting(&[atom], &[])).to_vec(),
    };
    let mut action = switch(2);
    action.needs = vec![(0, true)];
    let shop = Shop {
        atoms: 3,
        actions: vec![action],
        methods: vec![method([1, 2, 0]), method([0, 2, 1])],
    };
    (shop, goals(1, 3, false))
}
