//! Eight threads ask at once, each with buffers of its own, and join and measure constants at once. What each gets is what is due.

use crate::samples;
use brute::calls::{constant_due, height_due, join_due};
use brute::constants::some_pair;
use brute::due::{decided, due};
use brute::judge::{ANSWER_BYTES, ROW_BYTES};
use brute::library::{self, ASK_WORK_BYTES, LONGEST_TEXT};
use brute::question::hex;
use brute::report::{Family, Report};
use brute::tree::tree_of_row;
use std::sync::Barrier;
use std::thread;

pub const FAMILIES: &[Family] = &[
    ("eight threads at once", eight_threads),
    ("join and height in eight threads at once", join_and_height),
];

const THREADS: usize = 8;
const QUESTIONS: usize = 4000;
/// How often each thread goes through all questions or pairs.
const TIMES: usize = 2;
const PAIRS: usize = 4000;
/// How often a pair is joined and measured in a row. A call is so short that threads would otherwise be done one after the other.
const IN_A_ROW: usize = 100;

/// What the calls give for one question: asking, the text of the first row, and the constant that is read from it; and the question afterwards.
#[derive(PartialEq, Eq)]
struct Given {
    number: u64,
    question: Vec<u8>,
    answer: Vec<u8>,
    work: Vec<u8>,
    text: Vec<u8>,
    constant: u64,
}

/// What the buffers hold before.
const ANSWER: [u8; ANSWER_BYTES] = [0xA5; ANSWER_BYTES];
const WORK: [u8; ASK_WORK_BYTES] = [0x5A; ASK_WORK_BYTES];

fn given(bytes: &[u8]) -> Given {
    let (mut answer, mut work) = (ANSWER.to_vec(), WORK.to_vec());
    let mut text = vec![0; LONGEST_TEXT];
    let number = library::ask(bytes, &mut answer, &mut work);
    let length = library::text(&answer[..ROW_BYTES], &mut text) as usize;
    text.truncate(length);
    Given {
        number,
        question: bytes.to_vec(),
        answer,
        work,
        constant: library::constant(&text),
        text,
    }
}

fn given_due(bytes: &[u8]) -> Given {
    let due = due(&decided(bytes), ANSWER_BYTES, ASK_WORK_BYTES);
    let (mut answer, mut work) = (ANSWER.to_vec(), WORK.to_vec());
    answer[..due.answer.len()].copy_from_slice(&due.answer);
    work[..due.work.len()].copy_from_slice(&due.work);
    let text = tree_of_row(&answer[..ROW_BYTES]).text().into_bytes();
    Given {
        number: due.number,
        question: bytes.to_vec(),
        answer,
        work,
        constant: constant_due(&text),
        text,
    }
}

fn eight_threads(report: &mut Report) {
    let mut random = report.random();
    let mut questions = samples::by_hand();
    while questions.len() < QUESTIONS {
        questions.push(samples::accepted(&mut random));
    }
    let all_due: Vec<Given> = questions.iter().map(|bytes| given_due(bytes)).collect();
    let ask = |bytes: &Vec<u8>| given(bytes);
    for fault in at_once(&questions, &all_due, ask) {
        report.case(match fault {
            None => Ok(()),
            Some(number) => {
                let bytes = hex(&questions[number]);
                Err(format!("not what is due; question {bytes}"))
            }
        });
    }
}

fn join_and_height(report: &mut Report) {
    let mut random = report.random();
    let pairs: Vec<(u32, u32)> = (0..PAIRS).map(|n| some_pair(&mut random, n)).collect();
    let due = |&(a, b): &(u32, u32)| [(join_due(a, b), height_due(a)); IN_A_ROW];
    let all_due: Vec<_> = pairs.iter().map(due).collect();
    let call =
        |&(a, b): &(u32, u32)| [(); IN_A_ROW].map(|_| (library::join(a, b), library::height(a)));
    for fault in at_once(&pairs, &all_due, call) {
        report.case(match fault {
            None => Ok(()),
            Some(number) => Err(format!("not what is due; pair {:X?}", pairs[number])),
        });
    }
}

/// For each thread and input, a question or a pair: none, or the number of the input where the thread got something else.
/// Each thread begins at another input, so that at any moment the calls have different ones.
pub fn at_once<Asked: Clone + Sync, Got: PartialEq + Sync>(
    inputs: &[Asked],
    all_due: &[Got],
    ask: impl Fn(&Asked) -> Got + Sync,
) -> Vec<Option<usize>> {
    let together = Barrier::new(THREADS);
    let one = |thread: usize| {
        let own_inputs = inputs.to_vec();
        together.wait();
        let from = thread * inputs.len() / THREADS;
        let numbers = (from..from + TIMES * inputs.len()).map(|n| n % inputs.len());
        let fault = |number: usize| (ask(&own_inputs[number]) != all_due[number]).then_some(number);
        numbers.map(fault).collect::<Vec<_>>()
    };
    thread::scope(|scope| {
        let one = &one;
        let threads: Vec<_> = (0..THREADS).map(|t| scope.spawn(move || one(t))).collect();
        let ended = threads
            .into_iter()
            .map(|t| t.join().expect("a thread ended early"));
        ended.flatten().collect()
    })
}
