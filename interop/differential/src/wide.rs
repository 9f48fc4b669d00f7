//! Shops and orders whose goals have many rows, of one or of several alternatives,
//! and whose actions have few effects.

use crate::draft::{Action, Literal, Method, Node, Order, Shop};
use crate::random::Random;

const MAX_ROWS: usize = reference::MAX_ROWS as usize;

/// The most of each that a domain may have.
#[derive(Clone, Copy, Debug)]
pub struct Most {
    pub actions: usize,
    pub methods: usize,
    pub goals: usize,
}

impl Most {
    pub const USUAL: Most = Most {
        actions: 80,
        methods: 6,
        goals: 15,
    };

    /// Few enough for a search.
    pub const FEW: Most = Most {
        actions: 8,
        methods: 2,
        goals: 3,
    };
}

/// Which sign each atom has in most rows: where rows of two alternatives differ, no
/// action that helps the one is relevant.
struct Signs(Vec<bool>);

impl Signs {
    fn atoms(&self) -> u16 {
        self.0.len() as u16
    }

    /// So many rising literals, or one of each atom; in so many of 100 the other sign.
    fn literals(&self, random: &mut Random, count: usize, contrary: usize) -> Vec<Literal> {
        let mut left = count.min(self.0.len());
        let mut chosen = Vec::new();
        for (atom, &sign) in self.0.iter().enumerate() {
            if random.below(self.0.len() - atom) < left {
                left -= 1;
                chosen.push((atom as u16, sign != random.chance(contrary)));
            }
        }
        chosen
    }

    /// Mostly one or two effects, sometimes none or many.
    fn action(&self, random: &mut Random) -> Action {
        let effects = random.pick(&[0, 1, 1, 1, 1, 2, 2, 2, 2, 3, 30]);
        let contrary = random.pick(&[0, 0, 0, 50]);
        let needs = random.pick(&[0, 0, 0, 1, 3]);
        Action {
            cost: random.below(9) as u16,
            needs: self.literals(random, needs, 5),
            effects: self.literals(random, effects, contrary),
        }
    }

    /// An action for an atom that is not as most rows have it.
    fn mending_action(&self, random: &mut Random, atom: u16) -> Action {
        let mut effects = vec![(atom, self.0[usize::from(atom)])];
        let other = random.below(self.0.len());
        if other as u16 != atom && random.chance(50) {
            effects.push((other as u16, self.0[other]));
            effects.sort_unstable();
        }
        Action {
            cost: random.below(9) as u16,
            needs: Vec::new(),
            effects,
        }
    }

    /// About 20 to 250 rows in all, by up to five alternatives of about one length. The
    /// last may have one literal. Mostly one has no literal of the other sign, so that
    /// the goal can hold soon.
    fn wide_node(&self, random: &mut Random, number: usize) -> Node {
        let several = random.pick(&[1, 2, 2, 3, 5]);
        let literals = random.between(20, 240) / several;
        let last_literals = random.pick(&[1, literals, literals]);
        let contrary = random.pick(&[0, 0, 2, 10]);
        let regular = random.chance(90).then(|| random.below(several));
        let mut alternative = |number: usize| {
            let is_last = number > 0 && number + 1 == several;
            let literals = if is_last { last_literals } else { literals };
            let contrary = if regular == Some(number) { 0 } else { contrary };
            self.literals(random, literals, contrary)
        };
        let alternatives = (0..several).map(&mut alternative).collect();
        Node {
            after: (0..number as u16).filter(|_| random.chance(5)).collect(),
            alternatives,
        }
    }

    /// A method whose goal has few rows, or many, and whose other nodes are wide.
    fn method(&self, random: &mut Random) -> Method {
        let others = random.below(3);
        let mut nodes: Vec<Node> = (0..others)
            .map(|number| self.wide_node(random, number))
            .collect();
        let goal = random.pick(&[1, 1, 2, 2, 3, 40, 200]);
        let contrary = random.pick(&[0, 0, 0, 2]);
        nodes.push(Node {
            after: Vec::new(),
            alternatives: vec![self.literals(random, goal, contrary)],
        });
        let needs = random.pick(&[0, 0, 0, 1, 3]);
        Method {
            needs: self.literals(random, needs, 5),
            nodes,
        }
    }

    fn shop(&self, random: &mut Random, most: Most, wrong: &[u16]) -> Shop {
        let mended = wrong.iter().filter(|_| random.chance(80)).copied();
        let mended: Vec<u16> = mended.collect();
        let mut actions: Vec<Action> = mended
            .into_iter()
            .map(|atom| self.mending_action(random, atom))
            .collect();
        for _ in 0..random.between(1, most.actions) {
            actions.push(self.action(random));
        }
        let methods = random.between(0, most.methods);
        let methods = (0..methods).map(|_| self.method(random)).collect();
        let mut shop = Shop {
            atoms: self.atoms(),
            actions,
            methods,
        };
        while shop.sheet().rows.len() > MAX_ROWS {
            shop.methods.pop();
        }
        shop
    }

    /// From a state in which all but these atoms are as most rows have them.
    fn order(&self, random: &mut Random, most: Most, wrong: &[u16]) -> Order {
        let is_true = |&atom: &u16| self.0[usize::from(atom)] != wrong.contains(&atom);
        let goals = random.between(1, most.goals);
        let mut order = Order {
            atoms: self.atoms(),
            start: (0..self.atoms()).filter(is_true).collect(),
            goals: (0..goals).map(|n| self.wide_node(random, n)).collect(),
        };
        while order.sheet().rows.len() > MAX_ROWS {
            order.goals.pop();
        }
        order
    }
}

/// A shop and an order of wide goals, which mostly hold after a few steps.
pub fn sheets(random: &mut Random, most: Most) -> (Shop, Order) {
    let atoms = random.pick(&[20, 60, 150, 256]);
    let atoms = random.between(20, atoms);
    let signs = Signs((0..atoms).map(|_| random.chance(60)).collect());
    let wrong: Vec<u16> = (0..random.below(4))
        .map(|_| random.below(atoms) as u16)
        .collect();
    let shop = signs.shop(random, most, &wrong);
    let order = signs.order(random, most, &wrong);
    (shop, order)
}
