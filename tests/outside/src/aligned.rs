//! Buffers at every alignment from 0 to 15, each by itself and all together, between bytes that must stay.

use crate::asking::{ask, case};
use crate::memory::{Heap, ALIGNMENTS};
use crate::samples;
use crate::texts::{constant, row, text};
use brute::judge::ANSWER_BYTES;
use brute::library::{ASK_WORK_BYTES, LONGEST_TEXT};
use brute::make::random_row;
use brute::report::{Family, Report};

pub const FAMILIES: &[Family] = &[("every alignment", every_alignment)];

fn every_alignment(report: &mut Report) {
    let mut random = report.random();
    for (bytes, decided) in samples::one_of_each() {
        for number in 0..ALIGNMENTS.pow(3) {
            let [a, b, c] = [1, ALIGNMENTS, ALIGNMENTS.pow(2)].map(|n| number / n % ALIGNMENTS);
            let mut question = Heap::holding(&mut random, a, &bytes);
            let mut answer = Heap::new(&mut random, b, ANSWER_BYTES);
            let mut work = Heap::new(&mut random, c, ASK_WORK_BYTES);
            let given = ask(&decided, &mut question, &mut answer, &mut work);
            report.case(case(&bytes, given));
        }
    }
    for number in 0..ALIGNMENTS.pow(2) {
        let (a, b) = (number % ALIGNMENTS, number / ALIGNMENTS);
        for height in [0, 3, 10] {
            let content = random_row(&mut random, height);
            let mut from = Heap::holding(&mut random, a, &content);
            let mut to = Heap::new(&mut random, b, LONGEST_TEXT);
            report.case(text(&mut from, &mut to));
        }
    }
    for alignment in 0..ALIGNMENTS {
        for variable in 0..14 {
            let mut answer = Heap::new(&mut random, alignment, ANSWER_BYTES);
            report.case(row(&mut answer, variable));
        }
        for text in samples::tree_texts(&mut random) {
            report.case(constant(&mut Heap::holding(&mut random, alignment, &text)));
        }
    }
}
