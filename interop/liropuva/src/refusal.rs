//! A refusal: the first question answered no.

use std::error::Error;
use std::fmt;

/// The first question that was answered no, where, and which atom was not as
/// wanted.
#[derive(Clone, Copy, Debug, PartialEq, Eq, Hash)]
pub struct Refusal {
    /// The number of the question.
    pub number: u32,
    /// The row, method or step where it was asked, from 0; the number of steps
    /// for 33; 0 for a question about a whole sheet or room.
    pub place: u32,
    /// The first atom that is not as wanted before the step. For 30 it is that
    /// of the first unmet row among the needs of the action or method; for 29
    /// that of the first unmet row of the goal's first alternative, also where
    /// another alternative lacks less. `None` for every other number, so always
    /// of a check, of a search and of a join.
    pub unmet: Option<u16>,
}

/// What the place of a refusal counts.
#[derive(Clone, Copy, Debug, PartialEq, Eq)]
pub enum Place {
    /// Nothing: the question is about a whole sheet, room or number, and the
    /// place is 0.
    Whole,
    /// Rows of the sheet.
    Row,
    /// Methods.
    Method,
    /// Steps of the trace.
    Step,
    /// The place is the number of steps.
    End,
}

/// What a question is asked of.
#[derive(Clone, Copy, Debug, PartialEq, Eq)]
pub enum Subject {
    /// The shop sheet, in every call.
    Shop,
    /// An order sheet, in every call that takes one; in a join the first, then
    /// the second.
    Order,
    /// The trace, in every call that takes one.
    Trace,
    /// The room and the steps of a replay.
    Replay,
    /// Depth, room and result of a search.
    Search,
    /// Goals, rows and room of a join.
    Join,
}

/// A question that a call asks.
#[derive(Clone, Copy, Debug, PartialEq, Eq)]
pub struct Question {
    /// Its number, which a refusal names.
    pub number: u32,
    /// What it is asked of.
    pub subject: Subject,
    /// What the place of its refusal counts.
    pub place: Place,
    /// The question in plain words.
    pub text: &'static str,
}

/// One question a line: number, subject, place, text.
macro_rules! questions {
    ($($number:literal $subject:ident $place:ident $text:literal)*) => {
        &[$(Question {
            number: $number,
            subject: Subject::$subject,
            place: Place::$place,
            text: $text,
        }),*]
    };
}

/// Every question, by rising numbers, from the file that the launchers read too.
/// `docs/REFUSALS.md` explains each; a test holds that page to this list.
pub const QUESTIONS: &[Question] = include!("../../../text/questions.rs");

impl Refusal {
    /// What was asked; `None` of a number that this wrapper does not know.
    pub fn asked(&self) -> Option<&'static Question> {
        QUESTIONS.iter().find(|asked| asked.number == self.number)
    }

    /// The question in plain words.
    pub fn question(&self) -> &'static str {
        match self.asked() {
            Some(asked) => asked.text,
            None => "a question this wrapper does not know",
        }
    }
}

impl fmt::Display for Refusal {
    fn fmt(&self, f: &mut fmt::Formatter<'_>) -> fmt::Result {
        write!(f, "refused with {}", self.number)?;
        match self.asked().map_or(Place::Whole, |asked| asked.place) {
            Place::Whole => {}
            Place::Row => write!(f, " at row {}", self.place)?,
            Place::Method => write!(f, " at method {}", self.place)?,
            Place::Step => write!(f, " at step {}", self.place)?,
            Place::End => write!(f, " after {} steps", self.place)?,
        }
        if let Some(atom) = self.unmet {
            write!(f, ", where atom {atom} is not as wanted")?;
        }
        write!(f, ": the answer is no to \"{}\"", self.question())
    }
}

impl Error for Refusal {}

#[cfg(test)]
mod tests {
    use super::Refusal;

    #[test]
    fn a_refusal_reads_plainly() {
        let refusal = |number, place, unmet| {
            let refusal = Refusal {
                number,
                place,
                unmet,
            };
            refusal.to_string()
        };
        assert_eq!(
            refusal(28, 1, None),
            "refused with 28 at step 1: the answer is no to \"is this goal free?\""
        );
        assert_eq!(
            refusal(30, 7, Some(2)),
            "refused with 30 at step 7, where atom 2 is not as wanted: \
             the answer is no to \"do the needs of the action or method hold?\""
        );
        assert_eq!(
            refusal(29, 0, Some(0)),
            "refused with 29 at step 0, where atom 0 is not as wanted: \
             the answer is no to \"does the goal to be released hold?\""
        );
        assert_eq!(
            refusal(41, 0, None),
            "refused with 41: the answer is no to \"is the depth at most 32?\""
        );
    }
}
