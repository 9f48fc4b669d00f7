//! The sheets that are checked and the traces that are replayed.

use reference::{MAX_GOALS, MAX_ROWS, MAX_STEPS, METHOD_0};

use super::{Check, Replay, check, fill, goals, replay, switch};
use crate::cores;
use crate::draft::{Action, Method, Node, Order, Shop, Step};

const MOST_ROWS: usize = MAX_ROWS as usize;

pub fn checks() -> Vec<Check> {
    vec![check("shop and order of 4,000 rows each", full_sheets())]
}

pub fn replays() -> Vec<Replay> {
    let core = (cores::shop(1), cores::order(1, false), cores::steps());
    let few = (switches(64), goals(2, 64, false), action_steps(2, 1));
    let unordered = (switches(64), goals(64, 64, false), action_steps(64, 1));
    let chained = (switches(64), goals(64, 64, true), chained_steps());
    let few_methods = (switches(64), goals(4, 64, false), method_steps(4));
    let many_methods = (switches(64), goals(63, 64, false), method_steps(63));
    vec![
        replay("the long core", core),
        replay("4,096 steps, 2 waiting", few),
        replay("4,096 steps, 64 waiting, unordered", unordered),
        replay("4,096 steps, 64 waiting, chained", chained),
        replay("4,096 steps, sheets of 4,000 rows", full_replay()),
        replay("methods and releases, 4 waiting", few_methods),
        replay("methods and releases, 63 waiting", many_methods),
        replay(
            "4,096 steps, 256 effects, 15 alternatives of 255 rows",
            all_false(),
        ),
        replay("4,096 steps, 1 effect, 1,999 alternatives", one_of_many()),
        replay("4,096 steps, 2 effects, 19 goals of 200 rows", wide_goals()),
        replay(
            "4,096 steps, 250 effects, 25 goals of 1 row",
            many_effects(),
        ),
    ]
}

/// One action for each atom, which makes it true, and a method of one node.
fn switches(atoms: u16) -> Shop {
    let method = |atom| Method {
        needs: vec![],
        nodes: vec![Node::wanting(&[atom], &[])],
    };
    Shop {
        atoms,
        actions: (0..atoms).map(switch).collect(),
        methods: (0..atoms).map(method).collect(),
    }
}

/// Two sheets of 4,000 rows each: actions, methods and goals of common size.
fn full_sheets() -> (Shop, Order) {
    let atoms = reference::MAX_ATOMS;
    let action = |n: u16| Action {
        cost: n,
        needs: vec![(n % 100, true), (100 + n % 50, false)],
        effects: vec![(n % 120, true), (120 + n % 90, false)],
    };
    let method = |n: u16| Method {
        needs: vec![(n % atoms, true)],
        nodes: vec![
            Node::wanting(&[n % 90, 100 + n % 90], &[]),
            Node::wanting(&[n % 80, 90 + n % 80], &[0]),
            Node::wanting(&[n % 70], &[]),
        ],
    };
    let mut shop = Shop {
        atoms,
        actions: (0..255).map(action).collect(),
        methods: (0..190).map(method).collect(),
    };
    let missing = MOST_ROWS - shop.sheet().rows.len();
    fill(&mut shop.methods[0].nodes[0], missing);
    let mut order = goals(64, atoms, false);
    for (n, goal) in order.goals.iter_mut().enumerate() {
        goal.after = (0..n as u16).collect();
    }
    let missing = MOST_ROWS - order.sheet().rows.len();
    fill(&mut order.goals[0], missing);
    (shop, order)
}

/// Actions at the goals in turn, from this one on, then each goal's release.
fn action_steps(waiting: u16, first_action: u16) -> Vec<Step> {
    let actions = MAX_STEPS - waiting;
    let mut steps: Vec<Step> = (0..actions)
        .map(|n| (n % waiting, first_action + n % waiting))
        .collect();
    steps.extend((0..waiting).map(|_| (0, 0)));
    steps
}

/// With a chain of 64 goals: 63 times the action of the free one, its release.
fn chained_steps() -> Vec<Step> {
    let goal_steps = |goal| [vec![(0, 1 + goal); 63], vec![(0, 0)]].concat();
    (0..MAX_GOALS as u16).flat_map(goal_steps).collect()
}

/// Each goal's action, then methods and releases of their nodes at the goals in
/// turn, then each goal's release.
fn method_steps(waiting: u16) -> Vec<Step> {
    let mut steps: Vec<Step> = (0..waiting).map(|goal| (goal, 1 + goal)).collect();
    let pairs = (MAX_STEPS - 2 * waiting) / 2;
    for pair in 0..pairs {
        let place = pair % waiting;
        steps.extend([(place, METHOD_0 + place), (place, 0)]);
    }
    steps.extend((0..waiting).map(|_| (0, 0)));
    steps
}

/// 64 goals and as many of the last actions, in two sheets of 4,000 rows.
fn full_replay() -> (Shop, Order, Vec<Step>) {
    let atoms = reference::MAX_ATOMS;
    let goals_wanted = MAX_GOALS as u16;
    let first_atom = reference::MAX_ACTIONS - goals_wanted;
    let mut shop = switches(atoms);
    shop.actions.truncate(usize::from(reference::MAX_ACTIONS));
    shop.methods.truncate(usize::from(reference::MAX_METHODS));
    shop.methods[0].nodes.insert(0, Node::wanting(&[0], &[]));
    let missing = MOST_ROWS - shop.sheet().rows.len();
    fill(&mut shop.methods[0].nodes[0], missing);
    let mut order = goals(goals_wanted, atoms, false);
    for (atom, goal) in (first_atom..).zip(&mut order.goals) {
        goal.alternatives = vec![vec![(atom, true)]];
    }
    let missing = MOST_ROWS - order.sheet().rows.len();
    fill(&mut order.goals[0], missing);
    (shop, order, action_steps(goals_wanted, 1 + first_atom))
}

/// Actions without methods, and goals that wait from the empty state on.
fn bare(actions: Vec<Action>, goals: Vec<Node>) -> (Shop, Order) {
    let atoms = reference::MAX_ATOMS;
    let shop = Shop {
        atoms,
        actions,
        methods: vec![],
    };
    let order = Order {
        atoms,
        start: vec![],
        goals,
    };
    (shop, order)
}

/// An action of as many effects as there may be, again and again, at a goal that
/// nearly fills its order: a test that looks through the effects for every row of
/// the goal, or through the goal for every effect, takes longest here. All is
/// needed, made and wanted false, so that no start rows take up the order's room.
fn all_false() -> (Shop, Order, Vec<Step>) {
    let falses = |atoms: u16| (0..atoms).map(|atom| (atom, false)).collect();
    let most = reference::MAX_ATOMS;
    let action = Action {
        cost: 1,
        needs: falses(most - 1),
        effects: falses(most),
    };
    let goal = Node {
        after: vec![],
        alternatives: vec![falses(most - 1); 15],
    };
    let (shop, order) = bare(vec![action], vec![goal]);
    (shop, order, action_steps(1, 1))
}

/// An action of one effect, again and again, at a goal of as many alternatives of
/// one row as an order holds. The last row alone wants what the action makes.
fn one_of_many() -> (Shop, Order, Vec<Step>) {
    let last_atom = reference::MAX_ATOMS - 1;
    let others = (0..1_998).map(|n| vec![(n % last_atom, true)]);
    let goal = Node {
        after: vec![],
        alternatives: others.chain([vec![(last_atom, true)]]).collect(),
    };
    let (shop, order) = bare(vec![switch(last_atom)], vec![goal]);
    (shop, order, action_steps(1, 1))
}

/// As many goals of 200 rows as an order holds. Each has an action that makes its
/// last two rows true; the others are false throughout. The actions come in turn,
/// so that no step asks about the goal of the step before it.
fn wide_goals() -> (Shop, Order, Vec<Step>) {
    let (count, falses) = (19, 198);
    let made = |n: u16| [falses + 2 * n, falses + 2 * n + 1].map(|atom| (atom, true));
    let action = |n| Action {
        cost: 1,
        needs: vec![],
        effects: made(n).to_vec(),
    };
    let goal = |n| {
        let rows = (0..falses).map(|atom| (atom, false)).chain(made(n));
        Node {
            after: vec![],
            alternatives: vec![rows.collect()],
        }
    };
    let actions = (0..count).map(action).collect();
    let (shop, order) = bare(actions, (0..count).map(goal).collect());
    (shop, order, action_steps(count, 1))
}

/// An action of 250 effects at goals in turn, each of which wants one of them: every
/// tenth, so that a look through the effects finds them early and late.
fn many_effects() -> (Shop, Order, Vec<Step>) {
    let action = Action {
        cost: 1,
        needs: vec![],
        effects: (0..250).map(|atom| (atom, true)).collect(),
    };
    let count = 25;
    let goal = |n: u16| Node::wanting(&[10 * n + 9], &[]);
    let (shop, order) = bare(vec![action], (0..count).map(goal).collect());
    let actions = (0..MAX_STEPS - count).map(|n| (n % count, 1));
    let releases = (0..count).map(|_| (0, 0));
    (shop, order, actions.chain(releases).collect())
}
