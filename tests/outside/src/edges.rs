//! Null pointers with length 0, and every length of every buffer from 0 to some past its edge.

use crate::asking::{ask, case};
use crate::memory::{Heap, Memory, Null};
use crate::samples;
use crate::texts::{constant, row, text};
use brute::due::{decided, Decided};
use brute::judge::{ANSWER_BYTES, ROW_BYTES};
use brute::library::{ASK_WORK_BYTES, LONGEST_TEXT};
use brute::make::random_row;
use brute::random::Random;
use brute::report::{Family, Report};
use brute::tree_text::LONGEST_READ;
use brute::typed::SIGNS;

pub const FAMILIES: &[Family] = &[
    ("null pointers", nulls),
    ("lengths of the buffers of asking", lengths_for_asking),
    ("lengths of the question", long_questions),
    (
        "lengths for the row call and the text call",
        lengths_for_rows_and_texts,
    ),
    ("lengths of tree texts", lengths_of_tree_texts),
];

/// How far past an edge the lengths go.
const PAST: usize = 70;

/// Memory with these bytes, or a null pointer.
fn or_null(random: &mut Random, null: bool, content: &[u8]) -> Box<dyn Memory> {
    match null {
        true => Box::new(Null),
        false => Box::new(Heap::holding(random, 0, content)),
    }
}

/// Every call with each of its buffers null or not, in all combinations.
fn nulls(report: &mut Report) {
    let random = &mut report.random();
    for (bytes, _) in samples::one_of_each() {
        for which in 0..8 {
            let mut question = or_null(random, which & 1 > 0, &bytes);
            let mut answer = or_null(random, which & 2 > 0, &[0xA5; ANSWER_BYTES]);
            let mut work = or_null(random, which & 4 > 0, &[0x5A; ASK_WORK_BYTES]);
            let asked: &[u8] = if which & 1 > 0 { &[] } else { &bytes };
            let decided = decided(asked);
            let given = ask(&decided, &mut *question, &mut *answer, &mut *work);
            report.case(case(asked, given));
        }
    }
    for variable in (0..16).chain([255, usize::MAX]) {
        report.case(row(&mut Null, variable));
    }
    for which in 0..4 {
        let mut from = or_null(random, which & 1 > 0, &[0x0F; ROW_BYTES]);
        let mut to = or_null(random, which & 2 > 0, &[0; LONGEST_TEXT]);
        report.case(text(&mut *from, &mut *to));
    }
    report.case(constant(&mut Null));
}

fn lengths_for_asking(report: &mut Report) {
    let random = &mut report.random();
    for (bytes, decided) in samples::one_of_each() {
        let mut with = |answer_bytes, work_bytes| {
            let mut question = Heap::holding(random, 0, &bytes);
            let mut answer = Heap::new(random, 0, answer_bytes);
            let mut work = Heap::new(random, 0, work_bytes);
            let given = ask(&decided, &mut question, &mut answer, &mut work);
            report.case(case(&bytes, given));
        };
        for answer_bytes in 0..ANSWER_BYTES + PAST {
            with(answer_bytes, ASK_WORK_BYTES);
        }
        for work_bytes in 0..ASK_WORK_BYTES + PAST {
            with(ANSWER_BYTES, work_bytes);
        }
        for both in 0..PAST {
            with(both, both);
            with(ANSWER_BYTES - both, ASK_WORK_BYTES - both);
        }
    }
}

/// Questions cut everywhere, and longer than any that is accepted, up to far past what two bytes can number.
fn long_questions(report: &mut Report) {
    let random = &mut report.random();
    let mut with = |report: &mut Report, bytes: &[u8]| {
        let decided = decided(bytes);
        let mut question = Heap::holding(random, 0, bytes);
        let mut answer = Heap::new(random, 0, ANSWER_BYTES);
        let mut work = Heap::new(random, 0, ASK_WORK_BYTES);
        let given = ask(&decided, &mut question, &mut answer, &mut work);
        report.case(case(&bytes[..bytes.len().min(1000)], given));
    };
    for (bytes, _) in samples::one_of_each() {
        for length in 0..bytes.len() + PAST {
            let mut cut = bytes.clone();
            cut.resize(length, 0x00);
            with(report, &cut);
        }
        for length in [925, 926, 1023, 1024, 1025, 65_535, 65_536, 65_537, 1 << 20] {
            for filling in [0x00, 0x03, 0x12, 0x30, 0xFF] {
                let mut long = bytes.clone();
                long.resize(length, filling);
                with(report, &long);
                if let (Decided::Answered(..), Some(end)) =
                    (decided(&bytes), bytes.len().checked_sub(1))
                {
                    // Without its end the question goes on into the filling.
                    long[end] = filling;
                    with(report, &long);
                }
            }
        }
    }
}

fn lengths_for_rows_and_texts(report: &mut Report) {
    let random = &mut report.random();
    for answer_bytes in (0..ANSWER_BYTES + PAST).chain([4096, 65_536, 1 << 20]) {
        let mut answer = Heap::new(random, 0, answer_bytes);
        for variable in [0, 1, 10, 11, 12, 255, 256, 1 << 32, usize::MAX] {
            report.case(row(&mut answer, variable));
        }
    }
    for row_bytes in (0..ROW_BYTES + PAST).chain([1024, ANSWER_BYTES, 65_536 + ROW_BYTES]) {
        for text_bytes in [0, LONGEST_TEXT] {
            let mut from = Heap::new(random, 0, row_bytes);
            let mut to = Heap::new(random, 0, text_bytes);
            report.case(text(&mut from, &mut to));
        }
    }
    for height in [0, 1, 5, 10] {
        let content = random_row(random, height);
        for text_bytes in 0..LONGEST_TEXT + PAST {
            let mut from = Heap::holding(random, 0, &content);
            let mut to = Heap::new(random, 0, text_bytes);
            report.case(text(&mut from, &mut to));
        }
    }
}

/// Tree texts cut everywhere, with the signs that were cut off still behind the lent ones, and with more of one sign.
fn lengths_of_tree_texts(report: &mut Report) {
    let random = &mut report.random();
    for whole in samples::tree_texts(random) {
        for length in 0..whole.len() {
            let mut cut = Heap::holding(random, 0, &whole);
            cut.shorten(length);
            report.case(constant(&mut cut));
        }
        for sign in SIGNS {
            for length in whole.len()..LONGEST_READ + PAST {
                let mut longer = whole.clone();
                longer.resize(length, sign);
                report.case(constant(&mut Heap::holding(random, 0, &longer)));
            }
        }
    }
}
