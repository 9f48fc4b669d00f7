//! Sheets before they are words.

use reference::tag;

/// Tag and value.
pub type Row = (u16, u16);

/// Place and move.
pub type Step = (u16, u16);

/// An atom and its sign.
pub type Literal = (u16, bool);

/// A shop or order sheet as sizes (without the number of rows) and rows.
#[derive(Clone, Debug)]
pub struct Sheet {
    pub sizes: Vec<u16>,
    pub rows: Vec<Row>,
}

impl Sheet {
    pub fn words(&self) -> Vec<u16> {
        let mut words = self.sizes.clone();
        words.push(self.rows.len() as u16);
        words.extend(self.rows.iter().map(|row| row.0));
        words.extend(self.rows.iter().map(|row| row.1));
        words
    }
}

/// A trace as words.
pub fn trace_words(steps: &[Step]) -> Vec<u16> {
    let mut words = vec![steps.len() as u16];
    words.extend(steps.iter().map(|step| step.1));
    words.extend(steps.iter().map(|step| step.0));
    words
}

fn literal_rows(rows: &mut Vec<Row>, literals: &[Literal], tag_true: u16, tag_false: u16) {
    rows.extend(literals.iter().map(|&(atom, sign)| {
        let tag = if sign { tag_true } else { tag_false };
        (tag, atom)
    }));
}

#[derive(Clone, Debug)]
pub struct Action {
    pub cost: u16,
    pub needs: Vec<Literal>,
    pub effects: Vec<Literal>,
}

impl Action {
    fn rows(&self, rows: &mut Vec<Row>) {
        rows.push((tag::ACTION, self.cost));
        literal_rows(rows, &self.needs, tag::NEEDS_TRUE, tag::NEEDS_FALSE);
        literal_rows(rows, &self.effects, tag::MAKES_TRUE, tag::MAKES_FALSE);
    }
}

#[derive(Clone, Debug)]
pub struct Node {
    pub after: Vec<u16>,
    pub alternatives: Vec<Vec<Literal>>,
}

impl Node {
    /// One alternative, which wants these atoms true; after these nodes.
    pub fn wanting(atoms: &[u16], after: &[u16]) -> Node {
        Node {
            after: after.to_vec(),
            alternatives: vec![atoms.iter().map(|&atom| (atom, true)).collect()],
        }
    }

    fn rows(&self, rows: &mut Vec<Row>) {
        rows.push((tag::NODE, 0));
        rows.extend(self.after.iter().map(|&node| (tag::AFTER, node)));
        for literals in &self.alternatives {
            rows.push((tag::ALTERNATIVE, 0));
            literal_rows(rows, literals, tag::WANTED_TRUE, tag::WANTED_FALSE);
        }
    }
}

#[derive(Clone, Debug)]
pub struct Method {
    pub needs: Vec<Literal>,
    pub nodes: Vec<Node>,
}

impl Method {
    fn rows(&self, rows: &mut Vec<Row>) {
        rows.push((tag::METHOD, 0));
        literal_rows(rows, &self.needs, tag::NEEDS_TRUE, tag::NEEDS_FALSE);
        for node in &self.nodes {
            node.rows(rows);
        }
    }
}

#[derive(Clone, Debug)]
pub struct Shop {
    pub atoms: u16,
    pub actions: Vec<Action>,
    pub methods: Vec<Method>,
}

impl Shop {
    pub fn sheet(&self) -> Sheet {
        let mut rows = Vec::new();
        for action in &self.actions {
            action.rows(&mut rows);
        }
        for method in &self.methods {
            method.rows(&mut rows);
        }
        Sheet {
            sizes: vec![
                self.atoms,
                self.actions.len() as u16,
                self.methods.len() as u16,
            ],
            rows,
        }
    }

    pub fn words(&self) -> Vec<u16> {
        self.sheet().words()
    }
}

#[derive(Clone, Debug)]
pub struct Order {
    pub atoms: u16,
    pub start: Vec<u16>,
    pub goals: Vec<Node>,
}

impl Order {
    pub fn sheet(&self) -> Sheet {
        let mut rows: Vec<Row> = self.start.iter().map(|&atom| (tag::START, atom)).collect();
        for goal in &self.goals {
            goal.rows(&mut rows);
        }
        Sheet {
            sizes: vec![self.atoms, self.goals.len() as u16],
            rows,
        }
    }

    pub fn words(&self) -> Vec<u16> {
        self.sheet().words()
    }

    /// The join of two orders, row by row as document 01 says.
    pub fn join(&self, second: &Order) -> Order {
        let first_goals = self.goals.len() as u16;
        let mut goals = self.goals.clone();
        goals.extend(second.goals.iter().map(|goal| {
            Node {
                after: (0..first_goals)
                    .chain(goal.after.iter().map(|node| node + first_goals))
                    .collect(),
                alternatives: goal.alternatives.clone(),
            }
        }));
        Order {
            atoms: self.atoms,
            start: self.start.clone(),
            goals,
        }
    }

    /// The same goals from another state.
    pub fn from_state(&self, state: &reference::Atoms) -> Order {
        Order {
            start: state.iter().collect(),
            ..self.clone()
        }
    }
}
