//! The check of the three sheets: questions 1 to 9, 11 to 18 and 21 to 23.
//!
//! A check reads each row once and allocates nothing.

/// The most atoms a shop sheet may have.
pub const MAX_ATOMS: u16 = 256;
/// The most actions.
pub const MAX_ACTIONS: u16 = 255;
/// The most methods.
pub const MAX_METHODS: u16 = 255;
/// The most rows of a shop or order sheet.
pub const MAX_ROWS: u16 = 4000;
/// The most goals of an order, and the most that may wait at once.
pub const MAX_GOALS: usize = 64;
/// The most nodes of one method.
pub const MAX_METHOD_NODES: usize = 63;
/// The most steps of a trace.
pub const MAX_STEPS: u16 = 4096;

/// The tags of document 01.
pub mod tag {
    /// Action; the value is its cost.
    pub const ACTION: u16 = 1;
    /// Method.
    pub const METHOD: u16 = 2;
    /// Needs true.
    pub const NEEDS_TRUE: u16 = 3;
    /// Needs false.
    pub const NEEDS_FALSE: u16 = 4;
    /// Makes true.
    pub const MAKES_TRUE: u16 = 5;
    /// Makes false.
    pub const MAKES_FALSE: u16 = 6;
    /// Node.
    pub const NODE: u16 = 7;
    /// Alternative.
    pub const ALTERNATIVE: u16 = 8;
    /// Wanted true.
    pub const WANTED_TRUE: u16 = 9;
    /// Wanted false.
    pub const WANTED_FALSE: u16 = 10;
    /// After.
    pub const AFTER: u16 = 11;
    /// True at the start.
    pub const START: u16 = 12;
}

/// The first question that was answered no, and its place.
#[derive(Clone, Copy, Debug, PartialEq, Eq)]
pub struct Refusal {
    /// The number of the question.
    pub number: u16,
    /// The row, method or step, as the question says; else 0.
    pub place: usize,
}

impl Refusal {
    pub(crate) fn new(number: u16, place: usize) -> Refusal {
        Refusal { number, place }
    }
}

/// The rows of a sheet: two parallel arrays.
#[derive(Clone, Copy)]
pub(crate) struct Rows<'a> {
    tags: &'a [u16],
    values: &'a [u16],
}

impl<'a> Rows<'a> {
    /// The rows behind the sizes, if the length is right.
    fn split(words: &'a [u16], sizes: usize, rows: u16) -> Option<Rows<'a>> {
        let rows = usize::from(rows);
        if words.len() != sizes + 2 * rows {
            return None;
        }
        let (tags, values) = words[sizes..].split_at(rows);
        Some(Rows { tags, values })
    }

    /// The rows up to the first with this tag, and those from it on.
    pub(crate) fn split_before(self, tag: u16) -> (Rows<'a>, Rows<'a>) {
        let found = self.tags.iter().position(|&other| other == tag);
        let row = found.unwrap_or(self.tags.len());
        let (front_tags, tags) = self.tags.split_at(row);
        let (front_values, values) = self.values.split_at(row);
        let front = Rows {
            tags: front_tags,
            values: front_values,
        };
        (front, Rows { tags, values })
    }

    /// The first row and the others, if there are any.
    pub(crate) fn split_first(self) -> Option<((u16, u16), Rows<'a>)> {
        let (&tag, tags) = self.tags.split_first()?;
        let (&value, values) = self.values.split_first()?;
        Some(((tag, value), Rows { tags, values }))
    }

    pub(crate) fn iter(self) -> impl Iterator<Item = (u16, u16)> + 'a {
        self.tags.iter().copied().zip(self.values.iter().copied())
    }
}

/// What the last row was, as far as the next tag depends on it.
#[derive(Clone, Copy, PartialEq, Eq)]
enum Last {
    Start,
    /// An action, or a need of one.
    Action,
    Effect,
    /// A method, or a need of one.
    Method,
    /// A node or an after.
    Node,
    /// An alternative or a literal of one.
    Alternative,
}

/// A set of tags, one bit each.
const fn tags(list: &[u16]) -> u16 {
    let mut set = 0;
    let mut i = 0;
    while i < list.len() {
        set |= 1 << list[i];
        i += 1;
    }
    set
}

/// Which tags may follow, by [`Last`].
type Follow = [u16; 6];

const SHOP_FOLLOW: Follow = [
    tags(&[1, 2]),
    tags(&[3, 4, 5, 6, 1, 2]),
    tags(&[5, 6, 1, 2]),
    tags(&[3, 4, 7]),
    tags(&[11, 8]),
    tags(&[9, 10, 8, 7, 2]),
];

const ORDER_FOLLOW: Follow = [
    tags(&[12, 7]),
    0,
    0,
    0,
    tags(&[11, 8]),
    tags(&[9, 10, 8, 7]),
];

/// What a check of rows has counted so far.
struct Reader {
    last: Last,
    atoms: u16,
    /// The least value the next row of this group may have.
    least: u32,
    actions: usize,
    methods: usize,
    /// All nodes, and all alternatives, of the sheet.
    nodes: usize,
    alternatives: usize,
    /// The nodes of the network being read.
    network_nodes: usize,
    /// The alternatives and afters of the node being read.
    node_alternatives: usize,
    node_afters: usize,
    /// The first method outside its node rules.
    broken_method: Option<usize>,
}

impl Reader {
    fn new(atoms: u16) -> Reader {
        Reader {
            last: Last::Start,
            atoms,
            least: 0,
            actions: 0,
            methods: 0,
            nodes: 0,
            alternatives: 0,
            network_nodes: 0,
            node_alternatives: 0,
            node_afters: 0,
            broken_method: None,
        }
    }

    /// Questions 4 to 6 for all rows. For an order, `base` is 10.
    // Inlined for each kind of sheet, the counts stay in registers.
    #[inline(always)]
    fn read(&mut self, rows: Rows<'_>, follow: &Follow, base: u16) -> Result<(), Refusal> {
        for (row, (tag, value)) in rows.iter().enumerate() {
            if let Err(number) = self.read_row(tag, value, follow) {
                return Err(Refusal::new(base + number, row));
            }
        }
        Ok(())
    }

    #[inline(always)]
    fn read_row(&mut self, tag: u16, value: u16, follow: &Follow) -> Result<(), u16> {
        if tag > tag::START || follow[self.last as usize] >> tag & 1 == 0 {
            return Err(4);
        }
        match tag {
            tag::ACTION => {
                self.actions += 1;
                self.last = Last::Action;
                self.least = 0;
            }
            tag::METHOD => {
                self.zero(value)?;
                self.end_method();
                self.methods += 1;
                self.network_nodes = 0;
                self.last = Last::Method;
            }
            tag::NODE => {
                self.zero(value)?;
                self.nodes += 1;
                self.network_nodes += 1;
                self.node_alternatives = 0;
                self.node_afters = 0;
                self.last = Last::Node;
            }
            tag::ALTERNATIVE => {
                self.zero(value)?;
                self.alternatives += 1;
                self.node_alternatives += 1;
                self.last = Last::Alternative;
            }
            tag::AFTER => {
                // The node it stands in is the last of `network_nodes`.
                self.rising(value, usize::from(value) + 1 < self.network_nodes)?;
                self.node_afters += 1;
            }
            tag::MAKES_TRUE | tag::MAKES_FALSE => {
                if self.last != Last::Effect {
                    self.least = 0;
                    self.last = Last::Effect;
                }
                self.rising(value, value < self.atoms)?;
            }
            _ => self.rising(value, value < self.atoms)?,
        }
        Ok(())
    }

    /// The value of a row that opens a group.
    fn zero(&mut self, value: u16) -> Result<(), u16> {
        self.least = 0;
        if value == 0 { Ok(()) } else { Err(5) }
    }

    /// The value of a row within a group.
    fn rising(&mut self, value: u16, in_range: bool) -> Result<(), u16> {
        if !in_range {
            return Err(5);
        }
        if u32::from(value) < self.least {
            return Err(6);
        }
        self.least = u32::from(value) + 1;
        Ok(())
    }

    /// The node rules of the method that ends here, if there is one.
    fn end_method(&mut self) {
        if self.methods > 0
            && self.broken_method.is_none()
            && (self.network_nodes > MAX_METHOD_NODES
                || self.node_alternatives != 1
                || self.node_afters != 0)
        {
            self.broken_method = Some(self.methods - 1);
        }
    }

    fn may_end(&self) -> bool {
        self.last != Last::Method && self.last != Last::Node
    }
}

/// A shop sheet that passed its check.
pub(crate) struct ShopSheet<'a> {
    pub(crate) atoms: u16,
    pub(crate) rows: Rows<'a>,
    pub(crate) actions: usize,
    pub(crate) methods: usize,
    pub(crate) nodes: usize,
    pub(crate) alternatives: usize,
}

impl<'a> ShopSheet<'a> {
    pub(crate) fn check(words: &'a [u16]) -> Result<ShopSheet<'a>, Refusal> {
        let &[atoms, actions, methods, rows, ..] = words else {
            return Err(Refusal::new(1, 0));
        };
        if atoms == 0
            || atoms > MAX_ATOMS
            || actions > MAX_ACTIONS
            || methods > MAX_METHODS
            || rows > MAX_ROWS
        {
            return Err(Refusal::new(2, 0));
        }
        let rows = Rows::split(words, 4, rows).ok_or(Refusal::new(3, 0))?;
        let mut reader = Reader::new(atoms);
        reader.read(rows, &SHOP_FOLLOW, 0)?;
        if !reader.may_end() {
            return Err(Refusal::new(7, 0));
        }
        if reader.actions != usize::from(actions) || reader.methods != usize::from(methods) {
            return Err(Refusal::new(8, 0));
        }
        reader.end_method();
        if let Some(method) = reader.broken_method {
            return Err(Refusal::new(9, method));
        }
        Ok(ShopSheet {
            atoms,
            rows,
            actions: reader.actions,
            methods: reader.methods,
            nodes: reader.nodes,
            alternatives: reader.alternatives,
        })
    }
}

/// An order sheet that passed its check.
pub(crate) struct OrderSheet<'a> {
    pub(crate) rows: Rows<'a>,
    pub(crate) goals: usize,
    pub(crate) alternatives: usize,
}

impl<'a> OrderSheet<'a> {
    /// `shop_atoms` is the F of the shop sheet.
    pub(crate) fn check(shop_atoms: u16, words: &'a [u16]) -> Result<OrderSheet<'a>, Refusal> {
        let &[atoms, goals, rows, ..] = words else {
            return Err(Refusal::new(11, 0));
        };
        if atoms != shop_atoms || usize::from(goals) > MAX_GOALS || rows > MAX_ROWS {
            return Err(Refusal::new(12, 0));
        }
        let rows = Rows::split(words, 3, rows).ok_or(Refusal::new(13, 0))?;
        let mut reader = Reader::new(atoms);
        reader.read(rows, &ORDER_FOLLOW, 10)?;
        if !reader.may_end() {
            return Err(Refusal::new(17, 0));
        }
        if reader.nodes != usize::from(goals) {
            return Err(Refusal::new(18, 0));
        }
        Ok(OrderSheet {
            rows,
            goals: reader.nodes,
            alternatives: reader.alternatives,
        })
    }
}

/// The steps of a trace: moves and places.
#[derive(Clone, Copy, Debug)]
pub struct Trace<'a> {
    moves: &'a [u16],
    places: &'a [u16],
}

impl<'a> Trace<'a> {
    /// Questions 21 to 23.
    pub fn check(words: &'a [u16]) -> Result<Trace<'a>, Refusal> {
        let Some((&steps, rest)) = words.split_first() else {
            return Err(Refusal::new(21, 0));
        };
        if steps > MAX_STEPS {
            return Err(Refusal::new(22, 0));
        }
        if rest.len() != 2 * usize::from(steps) {
            return Err(Refusal::new(23, 0));
        }
        let (moves, places) = rest.split_at(usize::from(steps));
        Ok(Trace { moves, places })
    }

    /// The number of steps.
    pub fn len(self) -> usize {
        self.moves.len()
    }

    /// Has it no steps?
    pub fn is_empty(self) -> bool {
        self.moves.is_empty()
    }

    /// Place and move of each step.
    pub fn steps(self) -> impl Iterator<Item = (u16, u16)> + 'a {
        self.places.iter().copied().zip(self.moves.iter().copied())
    }

    /// The action numbers among the moves, in order.
    pub fn plan(self) -> impl Iterator<Item = u16> + 'a {
        let action = 1..=MAX_ACTIONS;
        self.moves
            .iter()
            .copied()
            .filter(move |word| action.contains(word))
    }

    /// The first `cut` steps, and the others.
    pub fn split_at(self, cut: usize) -> (Trace<'a>, Trace<'a>) {
        let (front_moves, back_moves) = self.moves.split_at(cut);
        let (front_places, back_places) = self.places.split_at(cut);
        (
            Trace {
                moves: front_moves,
                places: front_places,
            },
            Trace {
                moves: back_moves,
                places: back_places,
            },
        )
    }
}
