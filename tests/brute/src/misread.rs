//! Permission policies misread: one of their commands at a time is taken for something else. On many questions each slip gives
//! another result, and the comparison with the library notices.

use crate::asking::Asker;
use crate::due::{decided, due, Decided};
use crate::judge::ANSWER_BYTES;
use crate::library::ASK_WORK_BYTES;
use crate::make::{random_question, Size};
use crate::question::{operand_count, Question};
use crate::random::Random;
use crate::report::{Family, Report};
use crate::slips::enough;
use crate::tree::Tree;

pub const FAMILIES: &[Family] = &[("slips in permission policies", slips_noticed)];

/// Of the bytes from a command on: how many are taken, and the command that they are taken for; none if the command is read as it
/// is meant.
type Slip = fn(&[u8]) -> Option<(usize, Vec<u8>)>;

/// Constant 0, which is full in the questions here.
const FULL: u8 = 0x20;

const SLIPS: [(&str, Slip); 10] = [
    ("30 accepts empty", |from| match *from {
        [command @ (0x30 | 0x38), a, ..] => Some((2, vec![equality(command), a, a])),
        _ => None,
    }),
    ("30 as not empty", |from| match *from {
        [command @ (0x30 | 0x38), a, ..] => Some((2, vec![command + 1, a])),
        _ => None,
    }),
    ("31 as a positive clause", |from| match *from {
        [command @ (0x31 | 0x39), a, ..] => Some((2, vec![command - 1, a])),
        _ => None,
    }),
    ("31 as not full", |from| match *from {
        [command @ (0x31 | 0x39), a, ..] => Some((2, vec![equality(command) + 1, a, FULL])),
        _ => None,
    }),
    ("32 asks for a join that is full", |from| match *from {
        [command @ (0x32 | 0x3A), a, b, ..] => Some((3, vec![equality(command) - 2, a, b, FULL])),
        _ => None,
    }),
    ("32 of the first term alone", |from| match *from {
        [command @ (0x32 | 0x3A), a, _, ..] => Some((3, vec![command, a, a])),
        _ => None,
    }),
    (
        "the operand counts of 31 and 32 swapped",
        |from| match *from {
            [command @ (0x31 | 0x39), a, _, ..] => Some((3, vec![command, a])),
            [command @ (0x32 | 0x3A), a, ..] => Some((2, vec![command, a, a])),
            _ => None,
        },
    ),
    ("38 read into the first system", |from| match *from {
        [0x38, a, ..] => Some((2, vec![0x30, a])),
        _ => None,
    }),
    ("39 read into the first system", |from| match *from {
        [0x39, a, ..] => Some((2, vec![0x31, a])),
        _ => None,
    }),
    ("3A read into the first system", |from| match *from {
        [0x3A, a, b, ..] => Some((3, vec![0x32, a, b])),
        _ => None,
    }),
];

/// The equality of the same system.
fn equality(command: u8) -> u8 {
    if command < 0x38 {
        0x12
    } else {
        0x22
    }
}

/// The question that these bytes are taken for.
fn misread(bytes: &[u8], slip: Slip) -> Vec<u8> {
    let mut read = Vec::new();
    let mut rest = bytes;
    while let [command, ..] = rest {
        let width = 1 + operand_count(*command).unwrap_or(0);
        let (taken, taken_for) = slip(rest).unwrap_or_else(|| {
            let width = width.min(rest.len());
            (width, rest[..width].to_vec())
        });
        read.extend(taken_for);
        rest = &rest[taken..];
    }
    read
}

const SMALL: Size = Size {
    free: 3,
    own: 2,
    constants: 3,
    height: 2,
    positive: 4,
    disequations: 3,
    policies: true,
};

fn some_question(random: &mut Random) -> Question {
    let mut question = random_question(random, &SMALL);
    question
        .constants
        .resize(question.constants.len().max(1), Tree::Full);
    question.constants[0] = Tree::Full;
    question
}

/// The number and the rows that are given.
pub fn given(decided: &Decided) -> (u64, Vec<u8>) {
    let due = due(decided, ANSWER_BYTES, ASK_WORK_BYTES);
    (due.number, due.answer)
}

/// The library is asked each question once for what is due, and once for each slip that gives another result, which must be
/// found wrong.
fn slips_noticed(report: &mut Report) {
    let mut asker = Asker::new(report);
    let mut changed = [0; SLIPS.len()];
    for _ in 0..asker.report.rounds(5_000) {
        let question = some_question(&mut asker.random);
        let bytes = asker.mixed(&question);
        let lengths = asker.enough();
        asker.bytes(&bytes, lengths);
        let right = given(&decided(&bytes));
        for (count, (_, slip)) in changed.iter_mut().zip(SLIPS) {
            let wrong = decided(&misread(&bytes, slip));
            if given(&wrong) != right {
                *count += 1;
                asker.notices(&bytes, &wrong);
            }
        }
    }
    enough(
        asker.report,
        "results",
        SLIPS.map(|(name, _)| name),
        changed,
        50,
    );
    asker.seen.kind_0(asker.report, 200);
    asker.seen.kind_1(asker.report, 100);
}
