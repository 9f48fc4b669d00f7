//! The listing of an accepted trace, a line for each goal that was released:
//! document 02, Req 03.

use crate::ReplayRefusal;
use crate::literals::Atoms;
use crate::network::{Network, Shop};
use crate::run::{METHOD_0, Rules, Run};
use crate::sheet::{MAX_ROWS, MAX_STEPS, Trace};

/// What a goal of the order carries, for the step and for the method.
pub const OF_ORDER: u16 = 65_535;

/// The atom of an answer that names none.
const NO_ATOM: u16 = 256;

/// The words of the largest sheet of each kind.
const SHOP_WORDS: usize = 4 + 2 * MAX_ROWS as usize;
const ORDER_WORDS: usize = 3 + 2 * MAX_ROWS as usize;
const TRACE_WORDS: usize = 1 + 2 * MAX_STEPS as usize;

/// A goal that was released.
#[derive(Clone, Copy, Debug, PartialEq, Eq)]
pub struct Line {
    /// How many goals stand above it, up to the order's goal.
    pub above: usize,
    /// The step that released it, from 0.
    pub released: usize,
    /// The step that brought it in, from 0, or [`OF_ORDER`].
    pub brought: u16,
    /// The number of its method, from 0, or [`OF_ORDER`].
    pub method: u16,
}

impl Line {
    /// The line of the same goal where so many steps stand before the first.
    pub fn behind(self, cut: usize) -> Line {
        let brought = match self.brought {
            OF_ORDER => OF_ORDER,
            step => step + cut as u16,
        };
        Line {
            released: self.released + cut,
            brought,
            ..self
        }
    }

    fn print(self, text: &mut Vec<u8>) {
        let Line {
            above,
            released,
            brought,
            method,
        } = self;
        text.extend(b"  ".repeat(above));
        text.extend(format!("{released} {brought} {method}\n").bytes());
    }
}

/// What the list of places keeps of a waiting goal.
#[derive(Clone, Copy)]
struct Origin {
    above: usize,
    brought: u16,
    method: u16,
}

impl Origin {
    const ORDER: Origin = Origin {
        above: 0,
        brought: OF_ORDER,
        method: OF_ORDER,
    };

    fn released(self, step: usize) -> Line {
        let Origin {
            above,
            brought,
            method,
        } = self;
        Line {
            above,
            released: step,
            brought,
            method,
        }
    }
}

/// Follows a step that was taken, in the list of places; gives the line of the goal
/// that it released.
fn follow(
    places: &mut Vec<Origin>,
    shop: &Shop,
    step: usize,
    place: u16,
    word: u16,
) -> Option<Line> {
    let place = usize::from(place);
    if word == 0 {
        return Some(places.remove(place).released(step));
    }
    let method = word.checked_sub(METHOD_0)?;
    let node = Origin {
        above: places[place].above + 1,
        brought: step as u16,
        method,
    };
    let nodes = shop.methods[usize::from(method)].nodes;
    places.splice(place..place, std::iter::repeat_n(node, nodes));
    None
}

/// The lines of a trace on a network from a state, by these rules, in the order of
/// release; none where it is not accepted.
pub fn lines(
    rules: Rules,
    shop: &Shop,
    network: &Network,
    state: Atoms,
    trace: Trace<'_>,
) -> Option<Vec<Line>> {
    let mut run = Run::start(rules, shop, network, state)?;
    let mut places = vec![Origin::ORDER; network.nodes.len()];
    let mut lines = Vec::new();
    for (number, (place, word)) in trace.steps().enumerate() {
        run.step(place, word).ok()?;
        lines.extend(follow(&mut places, shop, number, place, word));
    }
    run.waiting().is_empty().then_some(lines)
}

/// The words of a file: low byte first, an odd last byte dropped, at most two bytes
/// read past the largest sheet.
fn words(bytes: &[u8], most: usize) -> Vec<u16> {
    let read = &bytes[..bytes.len().min(2 * most + 2)];
    read.chunks_exact(2)
        .map(|pair| u16::from_le_bytes([pair[0], pair[1]]))
        .collect()
}

/// What the listing program prints for the bytes of the files `shop`, `order` and
/// `trace`, where all can be read. A missing file has none.
pub fn printed_listing(shop: &[u8], order: &[u8], trace: &[u8]) -> Vec<u8> {
    let shop = words(shop, SHOP_WORDS);
    let order = words(order, ORDER_WORDS);
    let trace = words(trace, TRACE_WORDS);
    let mut text = Vec::new();
    match crate::listing(&shop, &order, &trace) {
        Ok(lines) => lines.into_iter().for_each(|line| line.print(&mut text)),
        Err(refusal) => text.extend(first_line(refusal).bytes()),
    }
    text
}

/// The first line that the replay program prints of a refused trace.
fn first_line(refusal: ReplayRefusal) -> String {
    let ReplayRefusal {
        number,
        place,
        unmet,
    } = refusal;
    let atom = unmet.unwrap_or(NO_ATOM);
    format!("{number} {place} 0 0 {atom}\n")
}
