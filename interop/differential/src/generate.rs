//! Well-formed shops and orders, small and large.

use crate::draft::{Action, Literal, Method, Node, Order, Shop};
use crate::random::Random;

const MAX_ROWS: usize = reference::MAX_ROWS as usize;

/// How large a generated domain is.
#[derive(Clone, Copy, Debug, PartialEq, Eq)]
pub enum Size {
    Tiny,
    Small,
    Medium,
    /// Near the limits.
    Large,
    /// Few atoms, methods of many nodes.
    Bulky,
    /// Few atoms and actions with needs, so that a search must go deep.
    Puzzle,
}

struct Bounds {
    atoms: (usize, usize),
    actions: (usize, usize),
    methods: (usize, usize),
    nodes: (usize, usize),
    goals: (usize, usize),
}

impl Size {
    fn bounds(self) -> Bounds {
        let (atoms, actions, methods, nodes, goals) = match self {
            Size::Tiny => ((1, 4), (0, 5), (0, 2), (1, 3), (0, 3)),
            Size::Small => ((2, 10), (1, 12), (0, 5), (1, 4), (0, 8)),
            Size::Medium => ((8, 80), (10, 60), (1, 20), (1, 8), (1, 30)),
            Size::Large => ((200, 256), (100, 255), (60, 255), (1, 5), (30, 64)),
            Size::Bulky => ((1, 6), (2, 12), (1, 6), (1, 63), (1, 8)),
            Size::Puzzle => ((2, 7), (2, 7), (0, 4), (1, 3), (1, 3)),
        };
        Bounds {
            atoms,
            actions,
            methods,
            nodes,
            goals,
        }
    }
}

fn count(random: &mut Random, (first, last): (usize, usize)) -> usize {
    // The ends are where the limits are.
    match random.below(8) {
        0 => first,
        1 => last,
        _ => random.between(first, last),
    }
}

/// Rising literals over distinct atoms, mostly positive.
fn literals(random: &mut Random, atoms: u16, most: usize) -> Vec<Literal> {
    let mut chosen: Vec<u16> = (0..random.between(0, most))
        .map(|_| random.below(usize::from(atoms)) as u16)
        .collect();
    chosen.sort_unstable();
    chosen.dedup();
    chosen
        .into_iter()
        .map(|atom| (atom, random.chance(70)))
        .collect()
}

/// As [`literals`], but seldom none.
fn some_literals(random: &mut Random, atoms: u16, most: usize) -> Vec<Literal> {
    let chosen = literals(random, atoms, most);
    if chosen.is_empty() && random.chance(90) {
        let atom = random.below(usize::from(atoms)) as u16;
        return vec![(atom, random.chance(70))];
    }
    chosen
}

/// How many literals at most: mostly few, so that they often hold; sometimes
/// more, so that several rows are unmet and which one comes first tells.
fn few_or_many(random: &mut Random) -> usize {
    random.pick(&[2, 2, 6])
}

fn action(random: &mut Random, atoms: u16) -> Action {
    let cost = match random.below(4) {
        0 => random.word(),
        1 => random.pick(&[0, 1, u16::MAX]),
        _ => random.below(20) as u16,
    };
    let needs = if random.chance(50) {
        few_or_many(random)
    } else {
        0
    };
    Action {
        cost,
        needs: literals(random, atoms, needs),
        effects: some_literals(random, atoms, 2),
    }
}

/// An action without needs that changes one atom, so that walks get far.
fn simple_action(random: &mut Random, atom: u16, sign: bool) -> Action {
    Action {
        cost: random.below(9) as u16,
        needs: Vec::new(),
        effects: vec![(atom, sign)],
    }
}

fn afters(random: &mut Random, number: usize) -> Vec<u16> {
    let percent = random.pick(&[0, 0, 10, 40, 100]);
    (0..number as u16)
        .filter(|_| random.chance(percent))
        .collect()
}

fn node(random: &mut Random, atoms: u16, number: usize) -> Node {
    let alternatives = random.pick(&[1, 1, 1, 1, 2, 3]);
    Node {
        after: afters(random, number),
        alternatives: (0..alternatives)
            .map(|_| {
                let most = few_or_many(random);
                some_literals(random, atoms, most)
            })
            .collect(),
    }
}

fn method(random: &mut Random, atoms: u16, nodes: usize) -> Method {
    let needs = if random.chance(30) {
        few_or_many(random)
    } else {
        0
    };
    let mut list: Vec<Node> = (0..nodes - 1).map(|n| node(random, atoms, n)).collect();
    list.push(Node {
        after: Vec::new(),
        alternatives: vec![some_literals(random, atoms, 2)],
    });
    Method {
        needs: literals(random, atoms, needs),
        nodes: list,
    }
}

pub fn shop(random: &mut Random, size: Size) -> Shop {
    let bounds = size.bounds();
    let atoms = count(random, bounds.atoms) as u16;
    let actions = count(random, bounds.actions);
    let methods = count(random, bounds.methods);
    let simple = match size {
        Size::Puzzle => random.pick(&[0, 20]),
        _ => random.pick(&[0, 50, 90, 100]),
    };
    let mut shop = Shop {
        atoms,
        actions: Vec::new(),
        methods: Vec::new(),
    };
    for n in 0..actions {
        let action = if random.chance(simple) {
            let sign = random.chance(70);
            simple_action(random, n as u16 % atoms, sign)
        } else {
            action(random, atoms)
        };
        shop.actions.push(action);
    }
    for _ in 0..methods {
        let nodes = count(random, bounds.nodes);
        shop.methods.push(method(random, atoms, nodes));
    }
    while shop.sheet().rows.len() > MAX_ROWS {
        if shop.methods.pop().is_none() {
            shop.actions.pop();
        }
    }
    shop
}

pub fn order(random: &mut Random, atoms: u16, goals: usize) -> Order {
    let percent = random.pick(&[0, 20, 50]);
    let mut order = Order {
        atoms,
        start: (0..atoms).filter(|_| random.chance(percent)).collect(),
        goals: (0..goals).map(|n| node(random, atoms, n)).collect(),
    };
    while order.sheet().rows.len() > MAX_ROWS {
        order.goals.pop();
    }
    order
}

pub fn goal_count(random: &mut Random, size: Size) -> usize {
    count(random, size.bounds().goals)
}

/// A shop whose methods list as subgoals what the actions need, and an order
/// for it: the shortest traces have many steps.
pub fn subgoals(random: &mut Random) -> (Shop, Order) {
    let atoms = random.between(3, 6) as u16;
    let mut shop = Shop {
        atoms,
        actions: (0..atoms).map(|atom| rung(random, atoms, atom)).collect(),
        methods: Vec::new(),
    };
    for _ in 0..random.below(3) {
        shop.actions.push(action(random, atoms));
    }
    for _ in 0..random.between(1, 3) {
        let goal = high_atom(random, atoms);
        shop.methods.push(subgoal_method(random, atoms, goal));
    }
    let goals = random.pick(&[1, 1, 2, 2, 3]);
    let mut order = order(random, atoms, goals);
    if random.chance(70) {
        order.start.clear();
    }
    for goal in &mut order.goals {
        if random.chance(80) {
            goal.alternatives = vec![vec![(high_atom(random, atoms), true)]];
        }
    }
    (shop, order)
}

fn high_atom(random: &mut Random, atoms: u16) -> u16 {
    atoms - 1 - random.pick(&[0, 0, 0, 1])
}

/// An action that makes the atom true from lower ones, and may change another.
fn rung(random: &mut Random, atoms: u16, atom: u16) -> Action {
    let needs = (atom.saturating_sub(2)..atom).filter(|_| random.chance(60));
    let needs = needs.collect::<Vec<u16>>();
    let mut effects = vec![(atom, true)];
    let other = random.below(usize::from(atoms)) as u16;
    if other != atom && random.chance(40) {
        effects.push((other, random.chance(40)));
        effects.sort_unstable();
    }
    Action {
        cost: random.below(9) as u16,
        needs: needs.into_iter().map(|atom| (atom, true)).collect(),
        effects,
    }
}

/// A method for the atom: some lower atoms first, mostly one after the other.
fn subgoal_method(random: &mut Random, atoms: u16, goal: u16) -> Method {
    let mut nodes: Vec<Node> = Vec::new();
    for atom in 0..goal {
        if random.chance(60) {
            let before = nodes.len().checked_sub(1).map(|n| n as u16);
            let mut alternatives = vec![vec![(atom, random.chance(90))]];
            if random.chance(15) {
                alternatives.push(some_literals(random, atoms, 2));
            }
            nodes.push(Node {
                after: before.filter(|_| random.chance(70)).into_iter().collect(),
                alternatives,
            });
        }
    }
    nodes.push(Node {
        after: Vec::new(),
        alternatives: vec![vec![(goal, true)]],
    });
    let needs = if random.chance(20) { 1 } else { 0 };
    Method {
        needs: literals(random, atoms, needs),
        nodes,
    }
}

/// A shop in which every walk can end well: one action makes each atom true,
/// and all is wanted true. Its methods may have many nodes.
pub fn easy_shop(random: &mut Random) -> Shop {
    easy_shop_of(random, 30)
}

/// An [`easy_shop`] whose methods have few nodes, so that they nest deep.
pub fn nesting_shop(random: &mut Random) -> Shop {
    easy_shop_of(random, 3)
}

fn easy_shop_of(random: &mut Random, most_nodes: usize) -> Shop {
    let atoms = random.between(1, 4) as u16;
    let actions = (0..atoms).map(|atom| simple_action(random, atom, true));
    let actions = actions.collect();
    let methods = (0..random.between(1, 3)).map(|_| {
        let nodes = random.between(1, most_nodes);
        Method {
            needs: Vec::new(),
            nodes: (0..nodes)
                .map(|n| {
                    let number = if n + 1 < nodes { n } else { 0 };
                    easy_node(random, atoms, number)
                })
                .collect(),
        }
    });
    let methods = methods.collect();
    Shop {
        atoms,
        actions,
        methods,
    }
}

fn easy_node(random: &mut Random, atoms: u16, number: usize) -> Node {
    Node {
        after: afters(random, number),
        alternatives: vec![vec![(random.below(usize::from(atoms)) as u16, true)]],
    }
}

/// An order for an [`easy_shop`].
pub fn easy_order(random: &mut Random, atoms: u16, goals: usize) -> Order {
    let percent = random.pick(&[0, 50]);
    Order {
        atoms,
        start: (0..atoms).filter(|_| random.chance(percent)).collect(),
        goals: (0..goals).map(|n| easy_node(random, atoms, n)).collect(),
    }
}

/// Adds literals and alternatives to a node, `rows` rows in all.
fn pad_node(random: &mut Random, node: &mut Node, atoms: u16, mut rows: usize) {
    while rows > 0 {
        let literals = (rows - 1).min(usize::from(atoms)).min(40);
        node.alternatives.push(
            (0..literals as u16)
                .map(|atom| (atom, random.chance(50)))
                .collect(),
        );
        rows -= 1 + literals;
    }
}

/// Makes the sheet have exactly `rows` rows, if it has a node that may grow.
pub fn pad_shop(random: &mut Random, shop: &mut Shop, rows: usize) {
    let missing = rows.saturating_sub(shop.sheet().rows.len());
    let atoms = shop.atoms;
    let mut methods = shop.methods.iter_mut();
    if let Some(method) = methods.find(|method| method.nodes.len() > 1) {
        pad_node(random, &mut method.nodes[0], atoms, missing);
    }
}

/// Makes the sheet have exactly `rows` rows, if it has a goal.
pub fn pad_order(random: &mut Random, order: &mut Order, rows: usize) {
    let missing = rows.saturating_sub(order.sheet().rows.len());
    let atoms = order.atoms;
    if let Some(goal) = order.goals.last_mut() {
        pad_node(random, goal, atoms, missing);
    }
}
