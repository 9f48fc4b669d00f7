//! Checked sheets as vectors: actions, methods, nodes and their alternatives.

use crate::literals::{Atoms, Literals};
use crate::sheet::{OrderSheet, Refusal, ShopSheet, tag};

/// An action of the shop.
#[derive(Clone, Debug, Default)]
pub struct Action {
    /// Its cost.
    pub cost: u16,
    /// What must hold before it.
    pub needs: Literals,
    /// What it makes true and false.
    pub effects: Literals,
}

/// A method of the shop. Its nodes stand in the shop's [`Nodes`].
#[derive(Clone, Debug, Default)]
pub struct Method {
    /// What must hold before it.
    pub needs: Literals,
    /// The literals of its last node.
    pub goal: Literals,
    /// The index of its first node among the shop's.
    pub first_node: usize,
    /// The number of its nodes.
    pub nodes: usize,
}

/// A node of a network: one goal.
#[derive(Clone, Debug, Default, PartialEq, Eq)]
pub struct Node {
    /// All literals of all alternatives together.
    pub literals: Literals,
    /// The nodes of its network that it comes after, one bit each. Two joined
    /// orders have up to 128 goals.
    pub after: u128,
    first_alternative: usize,
    end_alternative: usize,
}

/// Nodes in listed order, with their alternatives.
#[derive(Clone, Debug, Default, PartialEq, Eq)]
pub struct Nodes {
    nodes: Vec<Node>,
    alternatives: Vec<Literals>,
}

impl Nodes {
    fn with_capacity(nodes: usize, alternatives: usize) -> Nodes {
        Nodes {
            nodes: Vec::with_capacity(nodes),
            alternatives: Vec::with_capacity(alternatives),
        }
    }

    /// The number of nodes.
    pub fn len(&self) -> usize {
        self.nodes.len()
    }

    /// Are there no nodes?
    pub fn is_empty(&self) -> bool {
        self.nodes.is_empty()
    }

    /// The node with this index.
    pub fn node(&self, index: usize) -> &Node {
        &self.nodes[index]
    }

    /// The alternatives of a node.
    pub fn alternatives(&self, index: usize) -> &[Literals] {
        let node = &self.nodes[index];
        &self.alternatives[node.first_alternative..node.end_alternative]
    }

    /// A goal holds if one of its alternatives does.
    pub fn holds(&self, index: usize, state: &Atoms) -> bool {
        self.alternatives(index).iter().any(|a| a.hold(state))
    }

    /// Takes one row of a checked sheet, with a tag from 7 to 11.
    fn read_row(&mut self, tag: u16, value: u16) {
        if tag == tag::NODE {
            self.nodes.push(Node {
                first_alternative: self.alternatives.len(),
                end_alternative: self.alternatives.len(),
                ..Node::default()
            });
            return;
        }
        let node = self.nodes.last_mut().expect("a node stands first");
        match tag {
            tag::ALTERNATIVE => {
                self.alternatives.push(Literals::EMPTY);
                node.end_alternative += 1;
            }
            tag::AFTER => node.after |= 1 << value,
            _ => {
                let alternative = self.alternatives.last_mut();
                let alternative = alternative.expect("an alternative stands first");
                for literals in [alternative, &mut node.literals] {
                    if tag == tag::WANTED_TRUE {
                        literals.positive.insert(value);
                    } else {
                        literals.negative.insert(value);
                    }
                }
            }
        }
    }

    /// Adds all nodes of `other`, each after what `after` makes of its own.
    fn append(&mut self, other: &Nodes, after: impl Fn(u128) -> u128) {
        let offset = self.alternatives.len();
        self.nodes.extend(other.nodes.iter().map(|node| Node {
            after: after(node.after),
            first_alternative: node.first_alternative + offset,
            end_alternative: node.end_alternative + offset,
            ..node.clone()
        }));
        self.alternatives.extend_from_slice(&other.alternatives);
    }
}

/// A checked shop sheet.
#[derive(Clone, Debug)]
pub struct Shop {
    /// The number of atoms.
    pub atoms: u16,
    /// The actions; action 1 comes first.
    pub actions: Vec<Action>,
    /// The methods; method 0 comes first.
    pub methods: Vec<Method>,
    /// The nodes of all methods.
    pub nodes: Nodes,
}

impl Shop {
    /// Checks and reads a shop sheet.
    pub fn read(words: &[u16]) -> Result<Shop, Refusal> {
        Ok(Shop::build(&ShopSheet::check(words)?))
    }

    pub(crate) fn build(sheet: &ShopSheet<'_>) -> Shop {
        let mut shop = Shop {
            atoms: sheet.atoms,
            actions: Vec::with_capacity(sheet.actions),
            methods: Vec::with_capacity(sheet.methods),
            nodes: Nodes::with_capacity(sheet.nodes, sheet.alternatives),
        };
        for (tag, value) in sheet.rows.iter() {
            shop.read_row(tag, value);
        }
        shop.end_method();
        shop
    }

    fn read_row(&mut self, tag: u16, value: u16) {
        match tag {
            tag::ACTION => self.actions.push(Action {
                cost: value,
                ..Action::default()
            }),
            tag::METHOD => {
                self.end_method();
                self.methods.push(Method {
                    first_node: self.nodes.len(),
                    ..Method::default()
                });
            }
            tag::NEEDS_TRUE => self.needs().positive.insert(value),
            tag::NEEDS_FALSE => self.needs().negative.insert(value),
            tag::MAKES_TRUE => self.effects().positive.insert(value),
            tag::MAKES_FALSE => self.effects().negative.insert(value),
            _ => self.nodes.read_row(tag, value),
        }
    }

    /// The needs being read: the last method's, else the last action's, as all
    /// actions stand before all methods.
    fn needs(&mut self) -> &mut Literals {
        match self.methods.last_mut() {
            Some(method) => &mut method.needs,
            None => {
                &mut self
                    .actions
                    .last_mut()
                    .expect("an action stands first")
                    .needs
            }
        }
    }

    fn effects(&mut self) -> &mut Literals {
        let action = self.actions.last_mut();
        &mut action.expect("an action stands first").effects
    }

    /// Completes the method whose rows end here: its last node comes after all
    /// the others by rule and holds its goal.
    fn end_method(&mut self) {
        if let Some(method) = self.methods.last_mut() {
            method.nodes = self.nodes.len() - method.first_node;
            let last = self.nodes.nodes.last_mut().expect("a method has a node");
            last.after = (1 << (method.nodes - 1)) - 1;
            method.goal = last.literals;
        }
    }
}

/// A checked order sheet, or the join of two.
#[derive(Clone, Debug, PartialEq, Eq)]
pub struct Network {
    /// The atoms true at the start.
    pub start: Atoms,
    /// The goals.
    pub nodes: Nodes,
}

impl Network {
    /// Checks and reads an order sheet.
    pub fn read(shop: &Shop, words: &[u16]) -> Result<Network, Refusal> {
        Ok(Network::build(&OrderSheet::check(shop.atoms, words)?))
    }

    pub(crate) fn build(sheet: &OrderSheet<'_>) -> Network {
        let mut network = Network {
            start: Atoms::EMPTY,
            nodes: Nodes::with_capacity(sheet.goals, sheet.alternatives),
        };
        for (tag, value) in sheet.rows.iter() {
            if tag == tag::START {
                network.start.insert(value);
            } else {
                network.nodes.read_row(tag, value);
            }
        }
        network
    }

    /// The join of two orders: the first's start, its goals, then the second's
    /// goals, each after all of the first's. It has no limit on rows.
    pub fn join(first: &Network, second: &Network) -> Network {
        let goals = first.nodes.len();
        assert!(
            goals + second.nodes.len() <= 128,
            "orders have at most 64 goals"
        );
        let all_first = (1 << goals) - 1;
        let mut nodes = first.nodes.clone();
        nodes.append(&second.nodes, |after| after << goals | all_first);
        Network {
            start: first.start,
            nodes,
        }
    }
}
