//! The long core of document 01, and shops for several cores.

use crate::draft::{Action, Method, Node, Order, Shop, Step};

/// The steps of one core's trace.
pub const STEPS_A_CORE: u16 = 10;

fn action(cost: u16, need: Option<u16>, effects: &[(u16, bool)]) -> Action {
    Action {
        cost,
        needs: need.map(|atom| (atom, true)).into_iter().collect(),
        effects: effects.to_vec(),
    }
}

/// A shop for this many cores, each with four atoms, four actions and a method
/// of its own. With one core it is document 01's.
pub fn shop(cores: u16) -> Shop {
    let mut shop = Shop {
        atoms: 4 * cores,
        actions: Vec::new(),
        methods: Vec::new(),
    };
    for core in 0..cores {
        let [at_bark, bark, at_pith, pith] = [0, 1, 2, 3].map(|atom| 4 * core + atom);
        shop.actions.extend([
            action(3, None, &[(at_bark, true), (at_pith, false)]),
            action(10, Some(at_bark), &[(bark, true)]),
            action(3, Some(bark), &[(at_bark, false), (at_pith, true)]),
            action(10, Some(at_pith), &[(pith, true)]),
        ]);
        shop.methods.push(Method {
            needs: Vec::new(),
            nodes: vec![
                Node::wanting(&[at_bark], &[]),
                Node::wanting(&[bark], &[0]),
                Node::wanting(&[at_pith], &[1]),
                Node::wanting(&[pith], &[]),
            ],
        });
    }
    shop
}

/// The cores of one stage, which holds one core at a time: to clamp a core takes
/// every other off the clamp.
pub fn on_one_stage(mut shop: Shop) -> Shop {
    let clamped: Vec<u16> = (0..shop.atoms).step_by(2).collect();
    for action in &mut shop.actions {
        if let Some(&(own, _)) = action
            .effects
            .iter()
            .find(|e| e.1 && clamped.contains(&e.0))
        {
            action.effects = clamped.iter().map(|&atom| (atom, atom == own)).collect();
        }
    }
    shop
}

/// Each core's method twice over: no method is the only one that brings in a
/// goal.
pub fn with_two_methods(mut shop: Shop) -> Shop {
    let twice = |method: Method| [method.clone(), method];
    shop.methods = shop.methods.into_iter().flat_map(twice).collect();
    shop
}

/// A second action that clamps at the bark for each core, dearer than the first:
/// no action is the only one that makes a core clamped there.
pub fn with_two_clamps(mut shop: Shop) -> Shop {
    for clamp in (0..shop.actions.len()).step_by(4) {
        let mut second = shop.actions[clamp].clone();
        second.cost += 1;
        shop.actions.push(second);
    }
    shop
}

/// One goal a core: its pith half scanned. Chained, each comes after the one
/// before.
pub fn order(cores: u16, chained: bool) -> Order {
    Order {
        atoms: 4 * cores,
        start: Vec::new(),
        goals: (0..cores)
            .map(|core| {
                let before = if chained && core > 0 {
                    &[core - 1][..]
                } else {
                    &[]
                };
                Node::wanting(&[4 * core + 3], before)
            })
            .collect(),
    }
}

/// The trace of document 01 for the first core.
pub fn steps() -> Vec<Step> {
    [256, 1, 0, 2, 0, 3, 0, 4, 0, 0]
        .map(|word| (0, word))
        .to_vec()
}
