//! Buffers as a caller has them who asks again and again: zeroed, zero but for one byte, and with what the call before
//! left, at the same address.

use crate::asking::{ask, case};
use crate::samples;
use crate::texts::{constant, text};
use brute::due::{decided, Decided};
use brute::judge::{ANSWER_BYTES, ROW_BYTES};
use brute::lent::{Content, Lent};
use brute::library::{ASK_WORK_BYTES, LONGEST_TEXT};
use brute::make::random_row;
use brute::random::Random;
use brute::report::{Family, Report};
use brute::tree_text::LONGEST_READ;
use brute::typed::SIGNS;

pub const FAMILIES: &[Family] = &[
    ("buffers zeroed and reused", zeroed_and_reused),
    (
        "the same memory, one byte of the question changed",
        one_byte_changed,
    ),
    ("one byte in a zeroed buffer", one_byte),
    ("texts into a reused buffer", texts),
    (
        "the same memory, one byte of a tree text changed",
        tree_texts,
    ),
];

struct Buffers {
    question: Lent,
    answer: Lent,
    work: Lent,
}

impl Buffers {
    fn new(random: &mut Random) -> Buffers {
        Buffers {
            question: Lent::new(random, 1500),
            answer: Lent::new(random, ANSWER_BYTES),
            work: Lent::new(random, ASK_WORK_BYTES),
        }
    }

    fn lend(&mut self, random: &mut Random, content: Content) {
        self.answer.lend(random, ANSWER_BYTES, content);
        self.work.lend(random, ASK_WORK_BYTES, content);
    }

    fn ask(&mut self, report: &mut Report, random: &mut Random, bytes: &[u8], decided: &Decided) {
        self.question.lend_holding(random, bytes);
        let given = ask(
            decided,
            &mut self.question,
            &mut self.answer,
            &mut self.work,
        );
        report.case(case(bytes, given));
    }
}

/// Each of some questions after each other one, in memory that was zeroed before the first of the two.
fn zeroed_and_reused(report: &mut Report) {
    let mut random = report.random();
    let mut questions: Vec<Vec<u8>> = samples::one_of_each().into_iter().map(|s| s.0).collect();
    questions.extend((0..60).map(|_| samples::accepted(&mut random)));
    let decided: Vec<Decided> = questions.iter().map(|bytes| decided(bytes)).collect();
    let mut buffers = Buffers::new(&mut random);
    for one in 0..questions.len() {
        for other in 0..questions.len() {
            buffers.lend(&mut random, Content::Zero);
            for number in [one, other, one] {
                let (bytes, decided) = (&questions[number], &decided[number]);
                buffers.lend(&mut random, Content::Kept);
                buffers.ask(report, &mut random, bytes, decided);
            }
        }
    }
}

/// Two questions of one length that differ in one byte, one after the other, for each byte.
fn one_byte_changed(report: &mut Report) {
    let mut random = report.random();
    let mut buffers = Buffers::new(&mut random);
    buffers.lend(&mut random, Content::Random);
    for _ in 0..report.rounds(100) {
        let bytes = samples::accepted(&mut random);
        let whole = decided(&bytes);
        for at in 0..bytes.len() {
            let mut changed = bytes.clone();
            changed[at] ^= 1 << random.below(8);
            buffers.lend(&mut random, Content::Kept);
            buffers.ask(report, &mut random, &changed, &decided(&changed));
            buffers.ask(report, &mut random, &bytes, &whole);
        }
    }
}

/// One byte that is not zero, at each place of each buffer.
fn one_byte(report: &mut Report) {
    let mut random = report.random();
    let mut buffers = Buffers::new(&mut random);
    for (bytes, decided) in samples::one_of_each() {
        for at in 0..ANSWER_BYTES + ASK_WORK_BYTES {
            buffers.lend(&mut random, Content::Zero);
            let byte = random.between(1, 255) as u8;
            match at.checked_sub(ANSWER_BYTES) {
                None => buffers.answer.part_mut()[at] = byte,
                Some(at) => buffers.work.part_mut()[at] = byte,
            }
            buffers.ask(report, &mut random, &bytes, &decided);
        }
    }
}

/// Longer and shorter texts in turn, into a buffer that was zeroed once.
fn texts(report: &mut Report) {
    let mut random = report.random();
    let mut row = Lent::new(&mut random, ROW_BYTES);
    let mut into = Lent::new(&mut random, LONGEST_TEXT);
    into.lend(&mut random, LONGEST_TEXT, Content::Zero);
    for round in 0..report.rounds(2_000) {
        let content = random_row(&mut random, [10, 0, 7, 3, 1][round % 5]);
        row.lend_holding(&mut random, &content);
        report.case(text(&mut row, &mut into));
    }
}

/// Each tree text, then with another sign at a place, then as it was, for each place.
fn tree_texts(report: &mut Report) {
    let mut random = report.random();
    let mut memory = Lent::new(&mut random, LONGEST_READ);
    for text in samples::tree_texts(&mut random) {
        for at in 0..text.len() {
            let mut changed = text.clone();
            changed[at] = random.pick(&SIGNS);
            for text in [&text, &changed, &text] {
                memory.lend_holding(&mut random, text);
                report.case(constant(&mut memory));
            }
        }
    }
}
