//! What the release before permission policies gave for questions without their commands, as stored in tests/brute/before.txt.

use crate::documents::file;
use crate::fixed;
use crate::judge::ANSWER_BYTES;
use crate::library::{self, ASK_WORK_BYTES};
use crate::make::{entailment, random_question, Counts, Size, CHANGES};
use crate::question::{hex, read, write};
use crate::random::{hash, Random};
use crate::report::{Family, Report};
use crate::single::decide;
use crate::tree::Tree;
use crate::{refusals, worked};

pub const FAMILIES: &[Family] = &[("results of the release before", same_as_before)];

/// So many bytes past the first 1,536 are lent with the answer buffer, and past the first 4,096 with the work area.
const PAST: usize = 64;
const BETWEEN: &str = " | ";

/// A line of the file: the question, the number that asking gives, and the hashes of the whole answer buffer, whose bytes are A5
/// before the call, and of the whole work area, whose bytes are 5A.
pub fn line(question: &[u8]) -> String {
    let mut answer = vec![0xA5; ANSWER_BYTES + PAST];
    let mut work = vec![0x5A; ASK_WORK_BYTES + PAST];
    let number = library::ask(question, &mut answer, &mut work);
    let results = [number, hash(answer), hash(work)].map(|result| format!("{result:016X}"));
    [hex(question), results.join(BETWEEN)].join(BETWEEN)
}

fn question_of_line(line: &str) -> Vec<u8> {
    let question = line.split(BETWEEN).next().expect("a first part");
    worked::bytes(question)
}

/// The line that is due now, if it is another than the stored one. Since then a constant counts for the height only if some clause names it. Where a
/// taller one is not named, the height given is lower by the difference, and the rows are those of the fixed solution with that height. All else is as it was.
fn changed_since(stored: &str) -> Option<String> {
    let bytes = question_of_line(stored);
    let question = read(&bytes).ok()?;
    let tallest = question.constants.iter().map(Tree::height).max()?;
    let lower = u64::from(tallest - question.height());
    let rows = fixed::rows(&question, &decide(&question)).filter(|_| lower > 0)?;
    let mut answer = rows;
    answer.resize(ANSWER_BYTES + PAST, 0xA5);
    let parts: Vec<&str> = stored.split(BETWEEN).collect();
    let number = u64::from_str_radix(parts[1], 16).expect("a number") - (lower << 32);
    let (number, answer) = (format!("{number:016X}"), format!("{:016X}", hash(answer)));
    Some([parts[0], &number, &answer, parts[3]].join(BETWEEN))
}

fn same_as_before(report: &mut Report) {
    let stored = file("tests/brute/before.txt");
    let lines = stored.lines().filter(|line| !line.starts_with('#'));
    let (mut count, mut changed) = (0, 0);
    for stored in lines {
        count += 1;
        let now = changed_since(stored);
        changed += usize::from(now.is_some());
        let given = line(&question_of_line(stored));
        report.same("as before", given, now.unwrap_or(stored.to_string()));
    }
    report.same_apart("questions are stored", count >= 300, true);
    report.same_apart("of which these have a lower height", changed, 17);
}

const SMALL: Size = Size {
    free: 4,
    own: 2,
    constants: 3,
    height: 3,
    positive: 3,
    disequations: 4,
    policies: false,
};

/// Kind, free and own variables, how many constants, and the clauses. Constant i has its first i leaves full, so that no two are
/// alike. The terms 30, 31, 32, 38, 39 and 3A, which are commands of permission policies too, are constants
/// 16 to 18 and 24 to 26.
const NAMING_CONSTANTS: &[([u8; 3], u32, &str)] = &[
    ([0, 2, 0], 27, "10 00 30 31 | 10 31 01 32 | 00"),
    ([0, 3, 0], 32, "12 00 38 | 12 39 01 | 10 39 02 3A | 00"),
    (
        [0, 2, 0],
        29,
        "13 00 30 | 13 31 00 | 11 00 32 38 | 11 39 01 3A | 11 3A 30 01 | 00",
    ),
    ([0, 1, 0], 28, "12 00 32 | 13 32 00 | 00"),
    (
        [1, 1, 1],
        27,
        "10 30 00 38 | 20 31 01 39 | 20 32 01 39 | 00",
    ),
    (
        [1, 1, 1],
        30,
        "10 32 00 3A | 20 00 01 3A | 23 01 30 | 23 32 01 | 00",
    ),
    (
        [1, 1, 2],
        27,
        "10 00 30 31 | 20 31 01 32 | 20 00 01 02 | 20 30 02 32 | 00",
    ),
    (
        [1, 1, 0],
        31,
        "12 00 39 | 23 00 3A | 21 30 00 31 | 23 39 00 | 00",
    ),
    (
        [1, 1, 0],
        32,
        "13 00 30 | 11 00 31 38 | 22 32 00 | 21 39 3A 00 | 00",
    ),
    ([1, 1, 0], 27, "12 31 3A | 20 38 00 39 | 21 30 32 00 | 00"),
];

fn naming_constants() -> impl Iterator<Item = Vec<u8>> {
    NAMING_CONSTANTS.iter().map(|&(head, constants, clauses)| {
        let mut bytes = vec![0x01];
        bytes.extend(head);
        for full in 0..constants {
            bytes.push(0x03);
            bytes.extend(((1_u32 << full) - 1).to_le_bytes());
        }
        bytes.extend(worked::bytes(clauses));
        bytes
    })
}

/// The questions of the file: those worked by hand, refused ones, those with many constants, and random ones.
pub fn questions() -> Vec<Vec<u8>> {
    let mut questions: Vec<Vec<u8>> = worked::older().map(|w| worked::bytes(w.bytes)).collect();
    questions.extend(refusals::older().map(|fault| fault.bytes));
    questions.extend(naming_constants());
    let random = &mut Random::new(1);
    for round in 0..100 {
        let counts = Counts {
            positive: random.below(4),
            disequations: random.below(4),
            policies: false,
        };
        let change = CHANGES[round % CHANGES.len()];
        for question in [
            random_question(random, &SMALL),
            entailment(random, (3, 2), (3, 3), (counts, counts), change),
        ] {
            questions.push(write(&question, || random.once_in(2)));
        }
    }
    questions
}
