//! In which ways replays were refused with 31.

use std::collections::BTreeMap;

use liropuva::ReplayAnswer;
use reference::{METHOD_0, tag};

use crate::draft::{Row, Step};
use crate::relevance::{self, Relevance, Told};

/// The number of the question that tells nothing more.
pub const NUMBER: u32 = 31;

/// A way in which a step was refused. A step can be refused in several.
#[derive(Clone, Copy, Debug, PartialEq, Eq, PartialOrd, Ord)]
pub enum Way {
    /// Every step that was.
    Refused,
    /// An action of one effect, or of two.
    OneEffect,
    TwoEffects,
    OfMethod,
    /// At a goal of 20 to 250 rows with several alternatives.
    AtWideGoal,
}

impl Way {
    pub const ALL: [Way; 5] = [
        Way::Refused,
        Way::OneEffect,
        Way::TwoEffects,
        Way::OfMethod,
        Way::AtWideGoal,
    ];
}

/// How often a step was refused, blocked or neither, by the way.
#[derive(Clone, Debug, Default)]
pub struct Irrelevant(BTreeMap<(Told, Way), u64>);

impl Irrelevant {
    pub fn of(&self, told: Told, way: Way) -> u64 {
        self.0.get(&(told, way)).copied().unwrap_or(0)
    }

    pub(crate) fn add(&mut self, other: &Irrelevant) {
        for (&told_and_way, &times) in &other.0 {
            *self.0.entry(told_and_way).or_default() += times;
        }
    }

    pub(crate) fn print(&self) {
        println!("31, why and how: {:?}", self.0);
    }

    /// Counts an answer of 31 to these words. By their rows the step does not help.
    pub(crate) fn count(
        &mut self,
        answer: &ReplayAnswer,
        shop: &[u16],
        order: &[u16],
        trace: &[u16],
    ) {
        let (shop, order) = (rows(shop, 4), rows(order, 3));
        let operators = Operators::of(&shop);
        let steps = steps(trace);
        let (before, rest) = steps.split_at(answer.place as usize);
        let (place, word) = rest[0];
        let goal = operators.waiting(&order, before)[usize::from(place)];
        let acting = operators.acting(word);
        let told = Relevance::of(acting, goal).told();
        assert!(told != Told::Helping, "{acting:?} helps {goal:?}");
        for way in ways(acting, goal, word) {
            *self.0.entry((told, way)).or_default() += 1;
        }
    }
}

/// In which ways the step of this move was refused.
fn ways(acting: &[Row], goal: &[Row], word: u16) -> impl Iterator<Item = Way> {
    let of_method = word >= METHOD_0;
    let effects = relevance::effects(acting).len();
    let alternatives = goal.iter().filter(|row| row.0 == tag::ALTERNATIVE);
    let several = alternatives.count() > 1;
    let is = move |&way: &Way| match way {
        Way::Refused => true,
        Way::OneEffect => !of_method && effects == 1,
        Way::TwoEffects => !of_method && effects == 2,
        Way::OfMethod => of_method,
        Way::AtWideGoal => several && (20..=250).contains(&goal.len()),
    };
    Way::ALL.into_iter().filter(is)
}

/// The rows of a sheet, behind so many sizes.
fn rows(words: &[u16], sizes: usize) -> Vec<Row> {
    let rows = usize::from(words[sizes - 1]);
    let (tags, values) = words[sizes..].split_at(rows);
    tags.iter().copied().zip(values.iter().copied()).collect()
}

fn steps(trace: &[u16]) -> Vec<Step> {
    let (moves, places) = trace[1..].split_at(usize::from(trace[0]));
    places.iter().copied().zip(moves.iter().copied()).collect()
}

/// The rows of each node among these, with what stands before the first left out.
fn nodes(rows: &[Row]) -> impl Iterator<Item = &[Row]> {
    let parts = rows.chunk_by(|_, next| next.0 != tag::NODE);
    parts.filter(|part| part[0].0 == tag::NODE)
}

/// The rows of each action and of each method.
struct Operators<'a> {
    actions: Vec<&'a [Row]>,
    methods: Vec<&'a [Row]>,
}

impl<'a> Operators<'a> {
    fn of(shop: &'a [Row]) -> Operators<'a> {
        let parts = shop.chunk_by(|_, next| ![tag::ACTION, tag::METHOD].contains(&next.0));
        let (actions, methods) = parts.partition(|part| part[0].0 == tag::ACTION);
        Operators { actions, methods }
    }

    fn method(&self, word: u16) -> &'a [Row] {
        self.methods[usize::from(word - METHOD_0)]
    }

    /// The rows that tell the effects of a move: an action's, or those of the last
    /// node of a method, which has its goal.
    fn acting(&self, word: u16) -> &'a [Row] {
        if word < METHOD_0 {
            return self.actions[usize::from(word) - 1];
        }
        let last = nodes(self.method(word)).last();
        last.expect("a method has a node")
    }

    /// The rows of each goal that waits after these steps, none of which is refused.
    fn waiting(&self, order: &'a [Row], steps: &[Step]) -> Vec<&'a [Row]> {
        let mut waiting: Vec<&[Row]> = nodes(order).collect();
        for &(place, word) in steps {
            let place = usize::from(place);
            if word == 0 {
                waiting.remove(place);
            } else if word >= METHOD_0 {
                waiting.splice(place..place, nodes(self.method(word)));
            }
        }
        waiting
    }
}
