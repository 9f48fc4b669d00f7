//! The run of a trace on a network: questions 25 to 33.

use crate::literals::{Atoms, Literals};
use crate::network::{Action, Method, Network, Shop};
use crate::sheet::{MAX_ACTIONS, MAX_GOALS, Refusal, Trace};

/// The move of method 0.
pub const METHOD_0: u16 = 256;

/// What a run allows beyond what the sheets say: how many goals may wait, and
/// which actions and methods serve which goals.
#[derive(Clone, Copy, Debug, PartialEq, Eq)]
pub struct Rules {
    /// The most goals that may wait, at the start and after every step. More
    /// than 64 counts as 64.
    pub most_waiting: usize,
}

impl Rules {
    /// The rules of the public calls.
    pub const CALLS: Rules = Rules {
        most_waiting: MAX_GOALS,
    };

    /// May this action be taken for a goal with these literals?
    #[inline]
    pub(crate) fn allows_action(self, action: &Action, goal: &Literals) -> bool {
        action.effects.relevant(goal)
    }

    /// May this method be used at a goal with these literals?
    #[inline]
    pub(crate) fn allows_method(self, method: &Method, goal: &Literals) -> bool {
        method.goal.relevant(goal)
    }

    /// May so many goals wait?
    #[inline]
    fn allows_waiting(self, waiting: usize) -> bool {
        waiting <= self.most_waiting.min(MAX_GOALS)
    }
}

/// The goals that wait, in order, each with the places it comes after.
///
/// A goal only ever comes after goals at lower places: an order's afters point
/// down, and a method's nodes enter directly before the goal. So when goals
/// leave or enter at a place, only those behind it have anything to mend.
#[derive(Clone, Debug)]
pub struct WaitingList {
    len: usize,
    /// An order's goal by its number; a shop's node by its index past those.
    goals: [u16; MAX_GOALS],
    /// The places each goal comes after, one bit each.
    after: [u64; MAX_GOALS],
}

/// What puts a released goal back.
pub(crate) struct Released {
    goal: u16,
    /// The places that came after it, as numbered without it.
    followers: u64,
}

/// The bits of all places below this one.
fn below(place: usize) -> u64 {
    (1 << place) - 1
}

impl WaitingList {
    fn new(network: &Network) -> WaitingList {
        let mut list = WaitingList {
            len: network.nodes.len(),
            goals: [0; MAX_GOALS],
            after: [0; MAX_GOALS],
        };
        for place in 0..list.len {
            list.goals[place] = place as u16;
            list.after[place] = network.nodes.node(place).after as u64;
        }
        list
    }

    /// The number waiting.
    pub fn len(&self) -> usize {
        self.len
    }

    /// Does nothing wait?
    pub fn is_empty(&self) -> bool {
        self.len == 0
    }

    /// Is the goal at this place free?
    pub fn is_free(&self, place: usize) -> bool {
        self.after[place] == 0
    }

    pub(crate) fn goal(&self, place: usize) -> u16 {
        self.goals[place]
    }

    fn any_free(&self) -> bool {
        (0..self.len).any(|place| self.is_free(place))
    }

    pub(crate) fn release(&mut self, place: usize) -> Released {
        let goal = self.goals[place];
        let low = below(place);
        let mut followers = 0;
        for p in place + 1..self.len {
            let after = self.after[p];
            followers |= (after >> place & 1) << (p - 1);
            self.after[p - 1] = after & low | (after >> 1) & !low;
        }
        self.goals.copy_within(place + 1..self.len, place);
        self.len -= 1;
        Released { goal, followers }
    }

    pub(crate) fn undo_release(&mut self, place: usize, released: &Released) {
        let low = below(place);
        for p in (place..self.len).rev() {
            let after = self.after[p];
            let follows = (released.followers >> p & 1) << place;
            self.after[p + 1] = after & low | follows | (after & !low) << 1;
        }
        self.goals.copy_within(place..self.len, place + 1);
        self.goals[place] = released.goal;
        self.after[place] = 0;
        self.len += 1;
    }

    /// Puts `nodes` goals, numbered from `first`, directly before the goal at
    /// this place, which then comes after each of them.
    pub(crate) fn insert(
        &mut self,
        place: usize,
        first: u16,
        nodes: usize,
        after: impl Fn(usize) -> u64,
    ) {
        let low = below(place);
        for p in (place..self.len).rev() {
            let after = self.after[p];
            self.after[p + nodes] = after & low | (after & !low) << nodes;
        }
        self.goals.copy_within(place..self.len, place + nodes);
        for node in 0..nodes {
            self.goals[place + node] = first + node as u16;
            self.after[place + node] = after(node) << place;
        }
        self.after[place + nodes] = below(nodes) << place;
        self.len += nodes;
    }

    pub(crate) fn undo_insert(&mut self, place: usize, nodes: usize) {
        let low = below(place);
        self.after[place] = 0;
        for p in place + 1 + nodes..self.len {
            let after = self.after[p];
            self.after[p - nodes] = after & low | (after >> nodes) & !low;
        }
        self.goals.copy_within(place + nodes..self.len, place);
        self.len -= nodes;
    }
}

/// Where the rows of a waiting goal stand: the number of its node among all nodes
/// of a sheet.
#[derive(Clone, Copy)]
pub(crate) enum Origin {
    Order(usize),
    Shop(usize),
}

/// A move of a checked step.
#[derive(Clone, Copy)]
enum Move {
    Release,
    /// By its index, from 0.
    Action(usize),
    Method(usize),
}

/// A derivation under way.
#[derive(Clone, Debug)]
pub struct Run<'a> {
    pub(crate) rules: Rules,
    shop: &'a Shop,
    network: &'a Network,
    pub(crate) state: Atoms,
    pub(crate) waiting: WaitingList,
}

impl<'a> Run<'a> {
    /// The start, unless more goals wait there than the rules allow.
    pub fn start(
        rules: Rules,
        shop: &'a Shop,
        network: &'a Network,
        state: Atoms,
    ) -> Option<Run<'a>> {
        rules.allows_waiting(network.nodes.len()).then(|| Run {
            rules,
            shop,
            network,
            state,
            waiting: WaitingList::new(network),
        })
    }

    /// The state now.
    pub fn state(&self) -> &Atoms {
        &self.state
    }

    /// The goals waiting now.
    pub fn waiting(&self) -> &WaitingList {
        &self.waiting
    }

    /// The alternatives of the goal that waits at this place.
    pub fn alternatives(&self, place: u16) -> &'a [Literals] {
        match self.origin(self.waiting.goal(usize::from(place))) {
            Origin::Order(goal) => self.network.nodes.alternatives(goal),
            Origin::Shop(node) => self.shop.nodes.alternatives(node),
        }
    }

    /// The first question from 25 to 32 that this step fails, if any.
    pub fn check(&self, place: u16, word: u16) -> Result<(), u16> {
        self.read_step(usize::from(place), word).map(|_| ())
    }

    /// Takes a step; a refused one changes nothing.
    // Steps are most of a replay's time: inlined, they are a tenth faster.
    #[inline]
    pub fn step(&mut self, place: u16, word: u16) -> Result<(), u16> {
        let place = usize::from(place);
        match self.read_step(place, word)? {
            Move::Release => {
                self.waiting.release(place);
            }
            Move::Action(action) => {
                self.state = self.shop.actions[action].effects.change(&self.state);
            }
            Move::Method(method) => self.insert_nodes(place, method),
        }
        Ok(())
    }

    /// Takes the steps of a trace, which is accepted if none is refused and
    /// nothing waits behind the last. A refused step changes nothing.
    pub fn accept(&mut self, trace: Trace<'_>) -> Result<Accepted, Refusal> {
        for (number, (place, word)) in trace.steps().enumerate() {
            if let Err(question) = self.step(place, word) {
                return Err(Refusal::new(question, number));
            }
        }
        if !self.waiting.is_empty() {
            return Err(Refusal::new(33, trace.len()));
        }
        let mut plan_count = 0;
        let mut cost = 0;
        for action in trace.plan() {
            plan_count += 1;
            cost += u32::from(self.shop.actions[usize::from(action) - 1].cost);
        }
        Ok(Accepted {
            steps: trace.len(),
            plan_count,
            cost,
            state: self.state,
        })
    }

    fn read_move(&self, word: u16) -> Option<Move> {
        let index = usize::from(word);
        let method_0 = usize::from(METHOD_0);
        match word {
            0 => Some(Move::Release),
            1..=MAX_ACTIONS if index <= self.shop.actions.len() => Some(Move::Action(index - 1)),
            METHOD_0.. if index - method_0 < self.shop.methods.len() => {
                Some(Move::Method(index - method_0))
            }
            _ => None,
        }
    }

    #[inline(always)]
    fn read_step(&self, place: usize, word: u16) -> Result<Move, u16> {
        if place >= self.waiting.len() {
            return Err(25);
        }
        let step = self.read_move(word).ok_or(26_u16)?;
        if !self.waiting.is_free(place) {
            return Err(if self.waiting.any_free() { 28 } else { 27 });
        }
        let goal = self.waiting.goal(place);
        match step {
            Move::Release => self.holds(goal).then_some(step).ok_or(29),
            Move::Action(action) => {
                let action = &self.shop.actions[action];
                if !action.needs.hold(&self.state) {
                    return Err(30);
                }
                let relevant = self.rules.allows_action(action, self.literals(goal));
                relevant.then_some(step).ok_or(31)
            }
            Move::Method(method) => {
                let method = &self.shop.methods[method];
                if !method.needs.hold(&self.state) {
                    return Err(30);
                }
                if !self.rules.allows_method(method, self.literals(goal)) {
                    return Err(31);
                }
                let fits = self.rules.allows_waiting(self.waiting.len() + method.nodes);
                fits.then_some(step).ok_or(32)
            }
        }
    }

    /// Where the rows of a goal of the waiting list stand.
    #[inline]
    pub(crate) fn origin(&self, goal: u16) -> Origin {
        let goal = usize::from(goal);
        match goal.checked_sub(self.network.nodes.len()) {
            None => Origin::Order(goal),
            Some(node) => Origin::Shop(node),
        }
    }

    pub(crate) fn holds(&self, goal: u16) -> bool {
        match self.origin(goal) {
            Origin::Order(goal) => self.network.nodes.holds(goal, &self.state),
            Origin::Shop(node) => self.shop.nodes.holds(node, &self.state),
        }
    }

    pub(crate) fn literals(&self, goal: u16) -> &'a Literals {
        match self.origin(goal) {
            Origin::Order(goal) => &self.network.nodes.node(goal).literals,
            Origin::Shop(node) => &self.shop.nodes.node(node).literals,
        }
    }

    pub(crate) fn insert_nodes(&mut self, place: usize, method: usize) {
        let Shop { methods, nodes, .. } = self.shop;
        let method = &methods[method];
        let first = (self.network.nodes.len() + method.first_node) as u16;
        self.waiting.insert(place, first, method.nodes, |node| {
            nodes.node(method.first_node + node).after as u64
        });
    }
}

/// An accepted trace.
#[derive(Clone, Copy, Debug, PartialEq, Eq)]
pub struct Accepted {
    /// The number of steps.
    pub steps: usize,
    /// The number of actions among them.
    pub plan_count: usize,
    /// The sum of their costs.
    pub cost: u32,
    /// The state after the last step.
    pub state: Atoms,
}

/// Why a run on a network was not accepted.
#[derive(Clone, Copy, Debug, PartialEq, Eq)]
pub enum Unaccepted {
    /// More goals in the network than may wait.
    TooManyAtStart,
    /// A step was refused, or goals still wait at the end.
    Refused(Refusal),
}

/// Runs a trace on a network from a state, by these rules.
pub fn run(
    rules: Rules,
    shop: &Shop,
    network: &Network,
    state: Atoms,
    trace: Trace<'_>,
) -> Result<Accepted, Unaccepted> {
    let Some(mut run) = Run::start(rules, shop, network, state) else {
        return Err(Unaccepted::TooManyAtStart);
    };
    run.accept(trace).map_err(Unaccepted::Refused)
}
