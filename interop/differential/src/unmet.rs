//! In which ways replays named an atom.

use std::collections::BTreeMap;

use liropuva::ReplayAnswer;
use reference::{Atoms, Literals, METHOD_0, Network, Rules, Run, Shop, Trace};

/// A way in which a replay named an atom. An answer can name one in several.
#[derive(Clone, Copy, Debug, PartialEq, Eq, PartialOrd, Ord)]
pub enum Way {
    /// Every replay that named one.
    Named,
    /// Atom 0 of several.
    FirstAtom,
    /// Atom F - 1 of several.
    LastAtom,
    /// An atom that a method needs.
    OfMethod,
    /// An atom of a goal's first alternative, where another alternative has
    /// fewer unmet rows.
    OtherNearer,
}

/// How often each number came with an atom, by the way.
#[derive(Clone, Debug, Default)]
pub struct Unmet(BTreeMap<(u32, Way), u64>);

impl Unmet {
    pub fn of(&self, number: u32, way: Way) -> u64 {
        self.0.get(&(number, way)).copied().unwrap_or(0)
    }

    pub(crate) fn add(&mut self, other: &Unmet) {
        for (&number_and_way, &times) in &other.0 {
            *self.0.entry(number_and_way).or_default() += times;
        }
    }

    pub(crate) fn print(&self) {
        println!("numbers that named an atom, and how: {:?}", self.0);
    }

    /// Counts an answer to these words that names an atom.
    pub(crate) fn count(
        &mut self,
        answer: &ReplayAnswer,
        shop: &[u16],
        order: &[u16],
        trace: &[u16],
    ) {
        let last_atom = u32::from(shop[0]) - 1;
        let trace = Trace::check(trace).expect("steps were taken");
        let step = trace.steps().nth(answer.place as usize);
        let (place, word) = step.expect("a step was refused");
        for (way, came) in [
            (Way::Named, true),
            (Way::FirstAtom, last_atom > 0 && answer.atom == 0),
            (Way::LastAtom, last_atom > 0 && answer.atom == last_atom),
            (Way::OfMethod, word >= METHOD_0),
            (
                Way::OtherNearer,
                word == 0 && other_nearer(shop, order, trace, place),
            ),
        ] {
            if came {
                *self.0.entry((answer.number, way)).or_default() += 1;
            }
        }
    }
}

/// Has the goal that the trace failed to release, at this place, an alternative
/// with fewer unmet rows than its first?
fn other_nearer(shop: &[u16], order: &[u16], trace: Trace<'_>, place: u16) -> bool {
    let shop = Shop::read(shop).expect("it passed");
    let order = Network::read(&shop, order).expect("it passed");
    let run = Run::start(Rules::CALLS, &shop, &order, order.start);
    let mut run = run.expect("at most 64 goals");
    run.accept(trace).expect_err("a release was refused");
    let mut unmet = run
        .alternatives(place)
        .iter()
        .map(|alternative| unmet_rows(alternative, run.state()));
    let first = unmet.next().expect("a node has an alternative");
    unmet.any(|other| other < first)
}

fn unmet_rows(literals: &Literals, state: &Atoms) -> usize {
    let absent = literals.positive.iter().filter(|&a| !state.contains(a));
    let present = literals.negative.iter().filter(|&a| state.contains(a));
    absent.count() + present.count()
}
