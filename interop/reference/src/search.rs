//! The bounded search: questions 41 to 43.
//!
//! Iterative deepening, so the first trace found is one of the shortest; places
//! before moves, both rising, so it is the first of these. A branch is dropped
//! only when more goals wait than steps are left, as each needs a release.

use std::time::Instant;

use crate::network::{Network, Shop};
use crate::run::{METHOD_0, Rules, Run};
use crate::sheet::Refusal;

/// The most steps a search may be asked for.
pub const MAX_DEPTH: u32 = 32;

/// How long a search may go on.
#[derive(Clone, Copy, Debug)]
pub struct Budget {
    /// The most steps tried.
    pub steps: u64,
    /// When it must end.
    pub deadline: Option<Instant>,
}

impl Budget {
    /// No limit.
    pub fn unlimited() -> Budget {
        Budget {
            steps: u64::MAX,
            deadline: None,
        }
    }

    /// At most this many steps tried.
    pub fn steps(steps: u64) -> Budget {
        Budget {
            steps,
            deadline: None,
        }
    }

    /// Until then.
    pub fn until(deadline: Instant) -> Budget {
        Budget {
            steps: u64::MAX,
            deadline: Some(deadline),
        }
    }
}

/// Why a search gave no trace.
#[derive(Clone, Copy, Debug, PartialEq, Eq)]
pub enum Stopped {
    /// A question was answered no.
    Refused(Refusal),
    /// The budget was spent first.
    BudgetSpent,
}

impl From<Refusal> for Stopped {
    fn from(refusal: Refusal) -> Stopped {
        Stopped::Refused(refusal)
    }
}

#[derive(Clone, Copy)]
pub(crate) struct Step {
    pub(crate) place: u16,
    pub(crate) word: u16,
}

/// Where the relevant moves of a goal stand in [`Search::relevant`].
#[derive(Clone, Copy)]
struct Relevant {
    first: u32,
    first_method: u32,
    end: u32,
}

struct Search<'a> {
    shop: &'a Shop,
    run: Run<'a>,
    /// The steps up to here.
    steps: Vec<Step>,
    /// Relevance does not depend on the state, so each goal's relevant moves
    /// are listed once, when it is first tried.
    relevant: Vec<u16>,
    by_goal: Vec<Option<Relevant>>,
    steps_tried: u64,
    budget: Budget,
}

/// The first of the shortest accepted traces.
pub(crate) fn shortest(
    shop: &Shop,
    order: &Network,
    depth: usize,
    budget: Budget,
) -> Result<Vec<Step>, Stopped> {
    let run = Run::start(Rules::CALLS, shop, order, order.start);
    let mut search = Search {
        shop,
        run: run.expect("an order has at most 64 goals"),
        steps: Vec::with_capacity(depth),
        relevant: Vec::new(),
        by_goal: vec![None; order.nodes.len() + shop.nodes.len()],
        steps_tried: 0,
        budget,
    };
    for length in search.run.waiting.len()..=depth {
        if search.places(length)? {
            return Ok(search.steps);
        }
    }
    Err(Refusal::new(43, 0).into())
}

impl Search<'_> {
    /// Is there a way on with exactly `left` steps? Expects no more goals
    /// waiting than that.
    fn places(&mut self, left: usize) -> Result<bool, Stopped> {
        if self.run.waiting.is_empty() {
            return Ok(left == 0);
        }
        for place in 0..self.run.waiting.len() {
            if self.run.waiting.is_free(place) && self.moves(place, left - 1)? {
                return Ok(true);
            }
        }
        Ok(false)
    }

    /// Is there a way on with a step at this free goal, and `left` more?
    fn moves(&mut self, place: usize, left: usize) -> Result<bool, Stopped> {
        let goal = self.run.waiting.goal(place);
        if self.run.holds(goal) && self.release(place, left)? {
            return Ok(true);
        }
        // An action leaves the list as it is; a method adds to it.
        if self.run.waiting.len() > left {
            return Ok(false);
        }
        let relevant = self.relevant(goal);
        for i in relevant.first..relevant.first_method {
            let word = self.relevant[i as usize];
            if self.action(place, word, left)? {
                return Ok(true);
            }
        }
        for i in relevant.first_method..relevant.end {
            let word = self.relevant[i as usize];
            if self.method(place, word, left)? {
                return Ok(true);
            }
        }
        Ok(false)
    }

    fn release(&mut self, place: usize, left: usize) -> Result<bool, Stopped> {
        let released = self.run.waiting.release(place);
        let found = self.step(place, 0, left)?;
        self.run.waiting.undo_release(place, &released);
        Ok(found)
    }

    fn action(&mut self, place: usize, word: u16, left: usize) -> Result<bool, Stopped> {
        let action = &self.shop.actions[usize::from(word) - 1];
        let before = self.run.state;
        if !action.needs.hold(&before) {
            return Ok(false);
        }
        self.run.state = action.effects.change(&before);
        let found = self.step(place, word, left)?;
        self.run.state = before;
        Ok(found)
    }

    fn method(&mut self, place: usize, word: u16, left: usize) -> Result<bool, Stopped> {
        let number = usize::from(word - METHOD_0);
        let method = &self.shop.methods[number];
        // No more than `left`, so no more than 64, may wait afterwards.
        if self.run.waiting.len() + method.nodes > left || !method.needs.hold(&self.run.state) {
            return Ok(false);
        }
        self.run.insert_nodes(place, number);
        let found = self.step(place, word, left)?;
        self.run.waiting.undo_insert(place, method.nodes);
        Ok(found)
    }

    fn step(&mut self, place: usize, word: u16, left: usize) -> Result<bool, Stopped> {
        self.spend()?;
        let place = place as u16;
        self.steps.push(Step { place, word });
        let found = self.places(left)?;
        if !found {
            self.steps.pop();
        }
        Ok(found)
    }

    fn spend(&mut self) -> Result<(), Stopped> {
        self.steps_tried += 1;
        let late = |deadline| Instant::now() >= deadline;
        // The clock is read seldom: it costs more than a step.
        if self.steps_tried > self.budget.steps
            || self.steps_tried.is_multiple_of(4096) && self.budget.deadline.is_some_and(late)
        {
            return Err(Stopped::BudgetSpent);
        }
        Ok(())
    }

    /// The moves relevant to a goal: actions, then methods, both rising.
    fn relevant(&mut self, goal: u16) -> Relevant {
        if let Some(listed) = self.by_goal[usize::from(goal)] {
            return listed;
        }
        let (rules, literals) = (self.run.rules, self.run.literals(goal));
        let first = self.relevant.len() as u32;
        for (word, action) in (1..).zip(&self.shop.actions) {
            if rules.allows_action(action, literals) {
                self.relevant.push(word);
            }
        }
        let first_method = self.relevant.len() as u32;
        for (word, method) in (METHOD_0..).zip(&self.shop.methods) {
            if rules.allows_method(method, literals) {
                self.relevant.push(word);
            }
        }
        let listed = Relevant {
            first,
            first_method,
            end: self.relevant.len() as u32,
        };
        self.by_goal[usize::from(goal)] = Some(listed);
        listed
    }
}
