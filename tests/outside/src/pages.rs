//! Every buffer against a page that is not accessible: right before it and right after it. A read or a write
//! outside the buffer crashes there, and so does a write to bytes that are only lent to be read.

use crate::asking::{ask, case};
use crate::mapping::{page_bytes, Access, Mapping};
use crate::memory::Memory;
use crate::samples;
use crate::texts::{constant, row, text};
use brute::due::{decided, Decided};
use brute::judge::{ANSWER_BYTES, ROW_BYTES};
use brute::library::{ASK_WORK_BYTES, LONGEST_TEXT};
use brute::make::{largest, random_row, CHANGES};
use brute::question::write;
use brute::random::Random;
use brute::report::{Family, Report};
use brute::tree::tree_of_row;
use brute::tree_text::LONGEST_READ;
use brute::typed::SIGNS;

pub const FAMILIES: &[Family] = &[
    ("asking at the edge of a page", asking),
    ("cut questions at the edge of a page", cut_questions),
    ("rows and texts at the edge of a page", rows_and_texts),
    ("tree texts at the edge of a page", tree_texts),
];

#[derive(Clone, Copy, Debug, PartialEq, Eq)]
pub enum Side {
    Before,
    After,
}

pub const SIDES: [Side; 2] = [Side::Before, Side::After];

/// Pages between two that are not accessible, with lent bytes at one end of them.
pub struct Pages {
    mapping: Mapping,
    /// How many bytes are accessible.
    room: usize,
    side: Side,
    length: usize,
}

impl Pages {
    /// Room for so many lent bytes.
    pub fn new(most: usize) -> Pages {
        let room = most.max(1).next_multiple_of(page_bytes());
        let mapping = Mapping::new(room + 2 * page_bytes(), Access::None);
        Pages {
            mapping: mapping.expect("memory"),
            room,
            side: Side::After,
            length: 0,
        }
    }

    fn accessible(&self) -> *mut u8 {
        // One page into the mapping.
        unsafe { self.mapping.start().add(page_bytes()) }
    }

    fn protect(&self, access: Access) {
        self.mapping.protect(page_bytes(), self.room, access);
    }

    /// Lends these bytes, with the page that is not accessible on one side of them.
    fn lend(&mut self, random: &mut Random, side: Side, content: &[u8]) -> &mut Pages {
        (self.side, self.length) = (side, content.len());
        self.protect(Access::ReadAndWrite);
        // The room is mapped, and may be written now.
        let all = unsafe { std::slice::from_raw_parts_mut(self.accessible(), self.room) };
        all.fill(random.byte());
        let start = self.start();
        all[start..start + content.len()].copy_from_slice(content);
        self
    }

    /// The same, but a write crashes.
    pub fn lend_to_read(&mut self, random: &mut Random, side: Side, content: &[u8]) -> &mut Pages {
        self.lend(random, side, content);
        self.protect(Access::Read);
        self
    }

    fn lend_random(&mut self, random: &mut Random, side: Side, length: usize) -> &mut Pages {
        let content = random.bytes(length);
        self.lend(random, side, &content)
    }
}

impl Memory for Pages {
    fn pointer(&mut self) -> *mut u8 {
        // The lent bytes begin within the room, or right behind it where there are none.
        unsafe { self.accessible().add(self.start()) }
    }

    fn length(&self) -> usize {
        self.length
    }

    fn all(&self) -> &[u8] {
        // The room may always be read.
        unsafe { std::slice::from_raw_parts(self.accessible(), self.room) }
    }

    fn start(&self) -> usize {
        match self.side {
            Side::Before => 0,
            Side::After => self.room - self.length,
        }
    }
}

struct Buffers {
    question: Pages,
    answer: Pages,
    work: Pages,
}

/// How much longer than need be a buffer is at most.
const MORE: usize = 300;
/// Longer questions are left out here.
pub const LONGEST_QUESTION: usize = 1500;

fn buffers() -> Buffers {
    Buffers {
        question: Pages::new(LONGEST_QUESTION),
        answer: Pages::new(ANSWER_BYTES + MORE),
        work: Pages::new(ASK_WORK_BYTES + MORE),
    }
}

/// Some of the largest questions, with each change, by turns four without permission policies and four with them.
pub fn large(random: &mut Random, count: usize) -> Vec<Vec<u8>> {
    let mut questions = Vec::new();
    for round in 0..count {
        let question = largest(random, round + 4, CHANGES[round % 4], round / 4 % 2 == 1);
        questions.push(write(&question, || random.once_in(2)));
    }
    questions
}

fn asking(report: &mut Report) {
    let mut random = report.random();
    let mut buffers = buffers();
    let mut questions = samples::by_hand();
    questions.retain(|bytes| bytes.len() <= LONGEST_QUESTION);
    questions.extend((0..report.rounds(300)).map(|_| samples::accepted(&mut random)));
    questions.extend(large(&mut random, 8));
    for bytes in &questions {
        every_length(report, &mut random, &mut buffers, bytes);
    }
}

fn cut_questions(report: &mut Report) {
    let mut random = report.random();
    let mut buffers = buffers();
    let mut questions = large(&mut random, 8);
    questions.extend((0..report.rounds(80)).map(|_| samples::accepted(&mut random)));
    for bytes in &questions {
        for length in 0..bytes.len() {
            let cut = &bytes[..length];
            let lengths = (ANSWER_BYTES, ASK_WORK_BYTES);
            let decided = decided(cut);
            one(report, &mut random, &mut buffers, (cut, &decided), lengths);
        }
    }
}

fn every_length(report: &mut Report, random: &mut Random, buffers: &mut Buffers, bytes: &[u8]) {
    let decided = decided(bytes);
    let more = (random.between(1, MORE), random.between(1, MORE));
    for lengths in [
        (ANSWER_BYTES, ASK_WORK_BYTES),
        (ANSWER_BYTES + more.0, ASK_WORK_BYTES + more.1),
        (ANSWER_BYTES - 1, ASK_WORK_BYTES),
        (ANSWER_BYTES, ASK_WORK_BYTES - 1),
        (0, 0),
    ] {
        one(report, random, buffers, (bytes, &decided), lengths);
    }
}

/// One call for each side.
fn one(
    report: &mut Report,
    random: &mut Random,
    buffers: &mut Buffers,
    (bytes, decided): (&[u8], &Decided),
    (answer_bytes, work_bytes): (usize, usize),
) {
    for side in SIDES {
        let question = buffers.question.lend_to_read(random, side, bytes);
        let answer = buffers.answer.lend_random(random, side, answer_bytes);
        let work = buffers.work.lend_random(random, side, work_bytes);
        report.case(case(bytes, ask(decided, question, answer, work)));
    }
}

fn rows_and_texts(report: &mut Report) {
    let random = &mut report.random();
    let mut from = Pages::new(ROW_BYTES + MORE);
    let mut to = Pages::new(LONGEST_TEXT + MORE);
    let mut answer = Pages::new(ANSWER_BYTES + MORE);
    for round in 0..300 {
        let content = random_row(random, round % 11);
        let length = tree_of_row(&content).text().len();
        for text_bytes in [
            0,
            length - 1,
            length,
            length + 1,
            LONGEST_TEXT,
            LONGEST_TEXT + MORE,
        ] {
            for side in SIDES {
                let row = from.lend_to_read(random, side, &content);
                report.case(text(row, to.lend_random(random, side, text_bytes)));
            }
        }
    }
    for row_bytes in 0..ROW_BYTES + MORE {
        for side in SIDES {
            let content = random.bytes(row_bytes);
            let row = from.lend_to_read(random, side, &content);
            report.case(text(row, to.lend_random(random, side, LONGEST_TEXT)));
        }
    }
    for answer_bytes in [0, 1, ANSWER_BYTES - 1, ANSWER_BYTES, ANSWER_BYTES + MORE] {
        for variable in (0..16).chain([usize::MAX]) {
            for side in SIDES {
                let content = random.bytes(answer_bytes);
                report.case(row(answer.lend_to_read(random, side, &content), variable));
            }
        }
    }
}

/// Tree texts whole and cut everywhere, and of every length up to past the longest, of one sign.
fn tree_texts(report: &mut Report) {
    let random = &mut report.random();
    let mut pages = Pages::new(LONGEST_READ + MORE);
    let mut texts = samples::tree_texts(random);
    for sign in SIGNS {
        texts.push(vec![sign; LONGEST_READ + MORE]);
    }
    for whole in texts {
        for length in 0..=whole.len() {
            for side in SIDES {
                report.case(constant(pages.lend_to_read(random, side, &whole[..length])));
            }
        }
    }
}
