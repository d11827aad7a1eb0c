//! Families of the call that reads a constant from tree text. Whatever it accepts, the text call is to write again.

use crate::lent::Lent;
use crate::library;
use crate::make::{random_leaves, unfolded_bits};
use crate::random::Random;
use crate::report::{Family, Report};
use crate::seen::Seen;
use crate::tree::{row_of_tree, tree_of_number, CONSTANT_HEIGHT};
use crate::tree_text::{
    constant_of_text, packed, Read, LONGEST_READ, MOST_PAIRS, NOT_FOLDED, NOT_TREE_TEXT, TOO_TALL,
};
use crate::typed::{due_of_grown, grown, grown_within, some_text, unfolded, BY_HAND, SIGNS};

pub const FAMILIES: &[Family] = &[
    ("tree texts worked by hand", by_hand),
    ("every text of up to 7 signs", every_short_text),
    ("every byte in a tree text", every_byte),
    ("constants written and read again", written_and_read),
    ("tree texts round the longest", round_the_longest),
    ("grown tree texts", grown_texts),
    ("mistyped tree texts", mistyped_texts),
];

/// The refusal numbers; 0 stands for none.
const ALL_NUMBERS: [u8; 4] = [0, NOT_TREE_TEXT, NOT_FOLDED, TOO_TALL];

/// Reads one text after the other in the same memory.
pub struct Reading<'a> {
    pub report: &'a mut Report,
    pub random: Random,
    seen: Seen,
    text: Lent,
}

impl Reading<'_> {
    pub fn new(report: &mut Report) -> Reading<'_> {
        let mut random = report.random();
        Reading {
            report,
            text: Lent::new(&mut random, LONGEST_READ),
            random,
            seen: Seen::default(),
        }
    }

    /// One case of reading: any bytes.
    pub fn text(&mut self, text: &[u8]) {
        self.told(text, constant_of_text(text));
    }

    /// The same where it is known beforehand what is read. That the reader here gives it too is checked apart.
    fn known(&mut self, text: &[u8], due: Read) {
        let given = constant_of_text(text);
        self.report
            .same_apart("the reader", (shown(text), given), (shown(text), due));
        self.told(text, due);
    }

    /// A grown text of this height, and the same with a pair that could be folded.
    fn grown(&mut self, text: &[u8], height: usize) {
        let due = |due| match text.len() > LONGEST_READ {
            true => Err(NOT_TREE_TEXT),
            false => due,
        };
        self.known(text, due(due_of_grown(text, height)));
        if height > 0 {
            let unfolded = unfolded(&mut self.random, text);
            self.known(&unfolded, due(Err(NOT_FOLDED)));
        }
    }

    /// The same without the reader here.
    fn told(&mut self, text: &[u8], due: Read) {
        self.seen.note_refusal(due.err().unwrap_or(0));
        let fault = self.fault_of_call(text, due);
        self.report.case(match fault {
            None => Ok(()),
            Some(fault) => Err(format!("{}: {fault}", shown(text))),
        });
        if let Ok(constant) = due {
            self.written(constant, text);
        }
    }

    /// The library and the writer here write the constant as it was read.
    fn written(&mut self, constant: u32, text: &[u8]) {
        let tree = tree_of_number(constant);
        self.report
            .same_apart("the writer", tree.text(), shown(text));
        let mut written = [0; LONGEST_READ];
        let length = library::text(&row_of_tree(&tree), &mut written) as usize;
        let written = written.get(..length).unwrap_or(&[]);
        self.report.same("written", shown(written), shown(text));
    }

    /// Checks apart that a wrong result is noticed.
    pub fn notices(&mut self, text: &[u8], wrong: Read) {
        let fault = self.fault_of_call(text, wrong);
        self.report.apart(match fault {
            Some(_) => Ok(()),
            None => Err(format!("{}: a wrong result is not noticed", shown(text))),
        });
    }

    /// What is wrong with one call, if anything is.
    fn fault_of_call(&mut self, text: &[u8], due: Read) -> Option<String> {
        self.text.lend_holding(&mut self.random, text);
        let text_due = self.text.all().to_vec();
        let due = packed(due);

        let number = library::constant(self.text.part());

        if number != due {
            return Some(format!("number {number:X}, expected {due:X}"));
        }
        if self.text.all() != text_due {
            return Some("a byte of the text or beside it was changed".to_string());
        }
        None
    }

    /// Each of these numbers was seen so often.
    fn seen_each(&mut self, numbers: &[u8], least: usize) {
        let numbers: Vec<usize> = numbers.iter().map(|n| usize::from(*n)).collect();
        self.seen.refused(self.report, &numbers, least);
    }
}

fn shown(text: &[u8]) -> String {
    text.escape_ascii().to_string()
}

fn by_hand(report: &mut Report) {
    let mut reading = Reading::new(report);
    for (text, due) in BY_HAND {
        reading.told(text.as_bytes(), *due);
    }
    reading.seen_each(&ALL_NUMBERS, 4);
}

fn every_short_text(report: &mut Report) {
    const LONGEST: u32 = 7;
    let mut reading = Reading::new(report);
    for length in 0..=LONGEST {
        for number in 0..SIGNS.len().pow(length) {
            let sign = |place| SIGNS[number / SIGNS.len().pow(place) % SIGNS.len()];
            let text: Vec<u8> = (0..length).map(sign).collect();
            reading.text(&text);
        }
    }
    // With no pair, one and two there are 2, 4 and 16 trees, of which 2, 2 and 8 are folded.
    let refusals = reading.seen.refusals;
    let trees = (refusals[0], refusals[usize::from(NOT_FOLDED)]);
    report.same_apart("trees, folded and not", trees, (12, 10));
}

/// Every text of one or two bytes, and every byte in each place of some texts.
fn every_byte(report: &mut Report) {
    let mut reading = Reading::new(report);
    for one in 0..=255 {
        reading.text(&[one]);
        for other in 0..=255 {
            reading.text(&[one, other]);
        }
    }
    let height = CONSTANT_HEIGHT as usize;
    let mut texts: Vec<Vec<u8>> = (0..=height + 1)
        .map(|height| grown_within(&mut reading.random, height, MOST_PAIRS))
        .collect();
    texts.push(grown(&mut reading.random, height, MOST_PAIRS));
    texts.push(b"((oo)*)".to_vec());
    for text in texts {
        for at in 0..text.len() {
            for byte in 0..=255 {
                let mut changed = text.clone();
                changed[at] = byte;
                reading.text(&changed);
            }
        }
    }
    reading.seen_each(&ALL_NUMBERS, 20);
}

/// All constants no taller than 4; those with one or two leaves full, and with one or two empty; and random ones.
fn written_and_read(report: &mut Report) {
    let mut reading = Reading::new(report);
    let low = (0..1 << 16).map(|bits| unfolded_bits(bits, 4));
    let mut constants: Vec<u32> = low.collect();
    let two = (0..32).flat_map(|one| (0..=one).map(move |other| 1 << one | 1 << other));
    constants.extend(two.flat_map(|two: u32| [two, !two]));
    for _ in 0..reading.report.rounds(20_000) {
        constants.push(random_leaves(&mut reading.random, CONSTANT_HEIGHT));
        constants.push(reading.random.number() as u32);
    }
    for constant in constants {
        let text = tree_of_number(constant).text();
        reading.known(text.as_bytes(), Ok(constant));
    }
}

/// Trees of each height with as many pairs as the longest text has, one more and one less; cut, and with more behind them.
fn round_the_longest(report: &mut Report) {
    let mut reading = Reading::new(report);
    for pairs in MOST_PAIRS - 1..=MOST_PAIRS + 1 {
        for height in (0..=pairs).filter(|height| pairs < 1 << height) {
            let text = grown(&mut reading.random, height, pairs);
            reading.grown(&text, height);
            for cut in 1..=2 {
                reading.known(&text[..text.len() - cut], Err(NOT_TREE_TEXT));
            }
            for sign in SIGNS {
                for more in 1..=3 {
                    let longer = [&text[..], &vec![sign; more]].concat();
                    reading.known(&longer, Err(NOT_TREE_TEXT));
                }
            }
        }
    }
    reading.seen_each(&ALL_NUMBERS, 2);
}

/// Trees of every height that a text of up to 94 bytes can have.
fn grown_texts(report: &mut Report) {
    let mut reading = Reading::new(report);
    for height in 0..=MOST_PAIRS {
        for _ in 0..reading.report.rounds(200) {
            let text = grown_within(&mut reading.random, height, MOST_PAIRS);
            reading.grown(&text, height);
        }
    }
    reading.seen_each(&[0, NOT_FOLDED, TOO_TALL], 500);
}

fn mistyped_texts(report: &mut Report) {
    let mut reading = Reading::new(report);
    for _ in 0..reading.report.rounds(60_000) {
        let text = some_text(&mut reading.random);
        reading.text(&text);
    }
    reading.seen_each(&ALL_NUMBERS, 500);
}
