//! What asking is to give: the 64-bit number, and what the lent buffers hold afterwards.

use crate::fixed;
use crate::judge::ANSWER_BYTES;
use crate::library::ASK_WORK_BYTES;
use crate::question::{read, Question, Refusal};
use crate::single::{decide, Outcome};

/// What is to be said of some bytes, with buffers that are long enough.
pub enum Decided {
    Refused(Refusal),
    Answered(Answered),
}

/// A question, its answer, and the rows of the solution that is shown with it, if one is.
pub struct Answered {
    pub question: Question,
    pub outcome: Outcome,
    pub rows: Option<Vec<u8>>,
}

impl Answered {
    /// The rows are those of the fixed solution.
    pub fn new(question: Question, outcome: Outcome) -> Answered {
        Answered {
            rows: fixed::rows(&question, &outcome),
            question,
            outcome,
        }
    }
}

/// By the reader, route B and the fixed solution.
pub fn decided(bytes: &[u8]) -> Decided {
    match read(bytes) {
        Err(refusal) => Decided::Refused(refusal),
        Ok(question) => {
            let outcome = decide(&question);
            Decided::Answered(Answered::new(question, outcome))
        }
    }
}

/// What one call is to give: the number, and the first bytes of both buffers. The others stay as they are.
pub struct Due {
    pub number: u64,
    pub answer: Vec<u8>,
    pub work: Vec<u8>,
}

pub fn due(decided: &Decided, answer_bytes: usize, work_bytes: usize) -> Due {
    match decided {
        Decided::Refused(refusal) => refused(*refusal),
        Decided::Answered(..) if answer_bytes < ANSWER_BYTES => refused(of_buffer(11)),
        Decided::Answered(..) if work_bytes < ASK_WORK_BYTES => refused(of_buffer(12)),
        Decided::Answered(answered) => Due {
            number: packed_outcome(&answered.outcome),
            answer: answered.rows.clone().unwrap_or_default(),
            work: vec![0; ASK_WORK_BYTES],
        },
    }
}

fn of_buffer(number: u8) -> Refusal {
    Refusal { number, place: 0 }
}

fn refused(refusal: Refusal) -> Due {
    Due {
        number: packed_refusal(refusal),
        answer: Vec::new(),
        work: Vec::new(),
    }
}

/// The number's bytes: verdict, refusal number, place in two bytes, height, reason, disequation number, 0.
pub fn packed_refusal(refusal: Refusal) -> u64 {
    let [low, high] = (refusal.place as u16).to_le_bytes();
    u64::from_le_bytes([0, refusal.number, low, high, 0, 0, 0, 0])
}

pub fn packed_outcome(outcome: &Outcome) -> u64 {
    let verdict = if outcome.yes { 1 } else { 2 };
    let (height, number) = (outcome.height as u8, outcome.disequation as u8);
    u64::from_le_bytes([verdict, 0, 0, 0, height, outcome.reason, number, 0])
}
