//! Calls the library with the inputs of a family, in rounds.

use crate::families::Family;
use crate::judged;
use crate::lines::Call;
use crate::numbers::numbers;
use brute::judge::ANSWER_BYTES;
use brute::library::{self, ASK_WORK_BYTES};
use std::hint::black_box;
use std::time::{Duration, Instant};

const MOST_ROUNDS: usize = 2001;

/// What a caller lends, for one question after another. It is aligned, and so is the stack below one that lies there:
/// the C library's copying goes by the address, and takes the same steps in every run.
#[repr(align(64))]
pub struct Buffers {
    answer: [u8; ANSWER_BYTES],
    work: [u8; ASK_WORK_BYTES],
}

impl Buffers {
    pub fn new() -> Self {
        Buffers {
            answer: [0; ANSWER_BYTES],
            work: [0; ASK_WORK_BYTES],
        }
    }

    pub fn call(&mut self, call: Call, bytes: &[u8]) -> u64 {
        let bytes = black_box(bytes);
        black_box(match call {
            Call::Ask => library::ask(bytes, &mut self.answer, &mut self.work),
            Call::Judge => {
                let (rows, question) = judged::parts(bytes);
                library::judge(question, rows)
            }
            Call::Constant => library::constant(bytes),
            Call::Join => {
                let [a, b] = numbers(bytes);
                library::join(a, b)
            }
            Call::Height => {
                let [a] = numbers(bytes);
                u64::from(library::height(a))
            }
        })
    }
}

/// Calls with all inputs in rounds for so long, once at least; gives the nanoseconds per input of the median round.
pub fn median_round<T>(family: &Family, long: Duration, mut call: impl FnMut(&[u8]) -> T) -> f64 {
    median_of_rounds(family.inputs.len(), long, || {
        for input in &family.inputs {
            call(input);
        }
    })
}

/// The same of rounds with so many calls each.
pub fn median_of_rounds(calls: usize, long: Duration, mut round: impl FnMut()) -> f64 {
    let mut rounds = Vec::new();
    let began = Instant::now();
    while rounds.is_empty() || (began.elapsed() < long && rounds.len() < MOST_ROUNDS) {
        let round_began = Instant::now();
        round();
        rounds.push(round_began.elapsed());
    }
    rounds.sort();
    let median = rounds[rounds.len() / 2];
    median.as_nanos() as f64 / calls as f64
}
