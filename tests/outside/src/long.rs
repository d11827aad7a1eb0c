//! Buffers of 65,535 bytes to 2^20: lengths whose low 16 bits alone say that they are too short, or just right.

use crate::asking::{ask, case};
use crate::handed::judge;
use crate::memory::Heap;
use crate::samples;
use crate::texts::{constant, row, text};
use brute::due::decided;
use brute::judge::{ANSWER_BYTES, ROW_BYTES};
use brute::library::{ASK_WORK_BYTES, LONGEST_TEXT};
use brute::make::random_row;
use brute::random::Random;
use brute::report::{Family, Report};
use brute::tree::tree_of_row;

pub const FAMILIES: &[Family] = &[("buffers of 65,535 bytes to 1 MiB", long_buffers)];

/// Each of them is also taken with the low bits of a length that is just enough, and of one less.
const LENGTHS: [usize; 6] = [
    65_535,
    1 << 16,
    (1 << 16) + 1,
    1 << 17,
    (1 << 20) - 1,
    1 << 20,
];

fn lengths(enough: usize) -> Vec<usize> {
    let with = |length| [length, length + enough - 1, length + enough];
    LENGTHS.into_iter().flat_map(with).collect()
}

fn long_buffers(report: &mut Report) {
    let mut random = report.random();
    for (bytes, decided) in samples::one_of_each() {
        let answers = lengths(ANSWER_BYTES)
            .into_iter()
            .map(|n| (n, ASK_WORK_BYTES));
        let works = lengths(ASK_WORK_BYTES)
            .into_iter()
            .map(|n| (ANSWER_BYTES, n));
        let both = LENGTHS.map(|n| (n, n));
        for (answer, work) in answers.chain(works).chain(both) {
            let mut question = Heap::holding(&mut random, 0, &bytes);
            let mut answer = Heap::new(&mut random, 0, answer);
            let mut work = Heap::new(&mut random, 0, work);
            let given = ask(&decided, &mut question, &mut answer, &mut work);
            report.case(case(&bytes, given));
        }
    }
    questions(report, &mut random);
    rows_and_texts(report, &mut random);
    tree_texts(report, &mut random);
    handed_rows(report, &mut random);
}

/// Questions with bytes 00 behind their end, so many that the low 16 bits of the length say that it ends there.
fn questions(report: &mut Report, random: &mut Random) {
    for (bytes, _) in samples::one_of_each() {
        for length in lengths(bytes.len().max(1)) {
            let mut long = bytes.clone();
            long.resize(length, 0x00);
            let mut question = Heap::holding(random, 0, &long);
            let mut answer = Heap::new(random, 0, ANSWER_BYTES);
            let mut work = Heap::new(random, 0, ASK_WORK_BYTES);
            let given = ask(&decided(&long), &mut question, &mut answer, &mut work);
            report.case(case(&bytes, given));
        }
    }
}

fn rows_and_texts(report: &mut Report, random: &mut Random) {
    for length in lengths(ANSWER_BYTES) {
        let mut answer = Heap::new(random, 0, length);
        for variable in [0, 1, 11, 12] {
            report.case(row(&mut answer, variable));
        }
    }
    for length in lengths(ROW_BYTES) {
        let mut from = Heap::new(random, 0, length);
        let mut to = Heap::new(random, 0, LONGEST_TEXT);
        report.case(text(&mut from, &mut to));
    }
    for height in [0, 1, 5, 10] {
        let content = random_row(random, height);
        for length in lengths(tree_of_row(&content).text().len()) {
            let mut from = Heap::holding(random, 0, &content);
            let mut to = Heap::new(random, 0, length);
            report.case(text(&mut from, &mut to));
        }
    }
}

/// Tree texts with more behind them, so much that the low 16 bits of the length say that they end there.
fn tree_texts(report: &mut Report, random: &mut Random) {
    for whole in samples::few_tree_texts(random) {
        for length in lengths(whole.len()) {
            let mut long = whole.clone();
            long.resize(length, b'o');
            report.case(constant(&mut Heap::holding(random, 0, &long)));
        }
    }
}

/// Rows with more behind them, so much that the low 16 bits of the length say that there are 1,536 bytes; and questions likewise.
fn handed_rows(report: &mut Report, random: &mut Random) {
    for (bytes, rows) in samples::few_handed() {
        for length in lengths(ANSWER_BYTES) {
            let mut long = rows.clone();
            long.resize(length, 0x00);
            let mut question = Heap::holding(random, 0, &bytes);
            report.case(judge(&mut question, &mut Heap::holding(random, 0, &long)));
        }
        for length in lengths(bytes.len().max(1)) {
            let mut long = bytes.clone();
            long.resize(length, 0x00);
            let mut question = Heap::holding(random, 0, &long);
            report.case(judge(&mut question, &mut Heap::holding(random, 0, &rows)));
        }
    }
}
