//! What is due of the calls beside asking, which comes from the plain trees, and families of two of them: the row of a variable
//! and tree text.

use crate::judge::{ANSWER_BYTES, ROW_BYTES};
use crate::lent::{Lent, CONTENTS};
use crate::library::{self, LONGEST_TEXT};
use crate::make::random_row;
use crate::question::{hex, MOST_VARIABLES};
use crate::random::Random;
use crate::report::{Family, Report};
use crate::tree::{number_of_tree, tree_of_number, tree_of_row};
use crate::tree_text::{constant_of_text, packed};

pub const FAMILIES: &[Family] = &[("the row call", rows), ("the text call", texts)];

/// The row of a variable: its offset in the low half, its length in the high one; 0 for the empty part.
pub fn row_due(answer_bytes: usize, variable: usize) -> u64 {
    if answer_bytes < ANSWER_BYTES || variable >= MOST_VARIABLES {
        return 0;
    }
    (variable * ROW_BYTES) as u64 + ((ROW_BYTES as u64) << 32)
}

/// The number that the text call is to give, and the text that it is to write.
pub fn text_due(row: &[u8], text_bytes: usize) -> (u64, Vec<u8>) {
    if row.len() != ROW_BYTES {
        return (14 << 32, Vec::new());
    }
    let text = tree_of_row(row).text().into_bytes();
    if text.len() > text_bytes {
        return (13 << 32, Vec::new());
    }
    (text.len() as u64, text)
}

/// What an undefined join gives.
pub const UNDEFINED: u64 = 1 << 32;

/// The join in the low half, or exactly 2^32.
pub fn join_due(a: u32, b: u32) -> u64 {
    let joined = tree_of_number(a).join(&tree_of_number(b));
    joined.map_or(UNDEFINED, |tree| u64::from(number_of_tree(&tree)))
}

/// The number that reading a text is to give.
pub fn constant_due(text: &[u8]) -> u64 {
    packed(constant_of_text(text))
}

pub fn height_due(a: u32) -> u32 {
    tree_of_number(a).height()
}

fn rows(report: &mut Report) {
    let mut random = report.random();
    for bytes in [0, 1, 127, 128, 1535, 1536, 1537, 4096] {
        let variables = (0..=16).chain([127, 255, 256, 1 << 32, usize::MAX / 128, usize::MAX]);
        for variable in variables {
            let answer = Lent::random(&mut random, bytes);
            let before = answer.all().to_vec();
            let given = library::row(answer.part(), variable);
            let due = row_due(bytes, variable);
            report.case(match (given == due, answer.all() == before) {
                (true, true) => Ok(()),
                (false, _) => Err(format!("{given:X} of {bytes} and {variable}")),
                _ => Err("the answer buffer, or a byte beside it, was changed".to_string()),
            });
        }
    }
}

/// The text call, with the same memory again and again.
struct Texts<'a> {
    report: &'a mut Report,
    random: Random,
    row: Lent,
    text: Lent,
}

impl Texts<'_> {
    /// One call, with a row of any length.
    fn case(&mut self, row: &[u8], text_bytes: usize) {
        let content = self.random.pick(&CONTENTS);
        self.row.lend_holding(&mut self.random, row);
        self.text.lend(&mut self.random, text_bytes, content);
        let row_due = self.row.all().to_vec();
        let (due, written) = text_due(row, text_bytes);
        let text_due = self.text.all_with(&written);

        let number = library::text(self.row.part(), self.text.part_mut());

        let fault = if number != due {
            format!("number {number:X}, expected {due:X}")
        } else if self.text.all() != text_due {
            "the text buffer, or a byte beside it, is not as due".to_string()
        } else if self.row.all() != row_due {
            "a byte of the row or beside it was changed".to_string()
        } else {
            return self.report.case(Ok(()));
        };
        let fault = format!("{} into {text_bytes}: {fault}", hex(row));
        self.report.case(Err(fault));
    }

    /// A row into buffers round the length of its text.
    fn cases(&mut self, row: &[u8]) {
        let length = tree_of_row(row).text().len();
        let longer = length + self.random.below(200);
        for bytes in [0, length - 1, length, length + 1, longer, LONGEST_TEXT] {
            self.case(row, bytes);
        }
    }
}

fn texts(report: &mut Report) {
    let mut random = report.random();
    let mut texts = Texts {
        row: Lent::new(&mut random, ROW_BYTES),
        text: Lent::new(&mut random, LONGEST_TEXT),
        random,
        report,
    };
    for height in 0..=10 {
        for _ in 0..texts.report.rounds(150) {
            let row = random_row(&mut texts.random, height);
            texts.cases(&row);
        }
    }
    for byte in 0..=255 {
        texts.cases(&[byte; ROW_BYTES]);
    }
    for leaf in 0..1024 {
        let mut row = [0; ROW_BYTES];
        row[leaf / 8] = 1 << (leaf % 8);
        texts.cases(&row);
    }
    for bytes in (0..300).filter(|bytes| *bytes != ROW_BYTES) {
        let row = texts.random.bytes(bytes);
        texts.case(&row, LONGEST_TEXT);
        texts.case(&row, 0);
    }
    let longest = tree_of_row(&[0x55; ROW_BYTES]).text().len();
    report.same_apart("the longest text", longest, LONGEST_TEXT);
}
