//! Questions at the limits of SPEC 3.9, and one past them.

use crate::question::{operand_count, Refusal};
use crate::refusals::{Fault, NO, NO_REASON_3, YES, YES_AT_HEIGHT_5, YES_REASON_1};
use crate::worked;

/// Each command with how often it stands.
type Clauses = &'static [(u8, usize)];

const FULL: Clauses = &[(0x10, 64), (0x11, 31), (0x20, 64), (0x21, 31)];

/// Name, kind, constants, clauses, the tail, and the number that is due. All clauses are of variable 0 alone: joins
/// hold if it is empty, and then it may be held together with itself; equalities hold always.
const AT_THE_EDGE: &[(&str, u8, usize, Clauses, &str, u64)] = &[
    ("32 constants, none named", 0, 32, &[], "00", YES),
    (
        "the last constant named",
        0,
        32,
        &[],
        "12 00 3F | 00",
        YES_AT_HEIGHT_5,
    ),
    ("64 joins", 0, 0, &[(0x10, 64)], "00", YES),
    ("31 disequations", 0, 0, &[(0x13, 31)], "00", NO),
    (
        "a positive clause after 31 disequations",
        0,
        0,
        &[(0x13, 31)],
        "12 00 00 | 00",
        NO,
    ),
    (
        "a disequation after 64 positive",
        0,
        0,
        &[(0x12, 64)],
        "13 00 00 | 00",
        NO,
    ),
    (
        "64 joins, equalities and pairs held together",
        0,
        0,
        &[(0x10, 16), (0x12, 16), (0x32, 32)],
        "00",
        YES,
    ),
    ("64 that may write", 0, 0, &[(0x30, 64)], "00", YES),
    (
        "31 disequations, of every sort",
        0,
        0,
        &[(0x11, 1), (0x13, 1), (0x31, 29)],
        "00",
        NO,
    ),
    (
        "64 that may write and 31 that may read",
        0,
        0,
        &[(0x30, 64), (0x31, 31)],
        "00",
        YES_AT_HEIGHT_5,
    ),
    (
        "64 and 31 policies of the second",
        1,
        0,
        &[(0x30, 1), (0x38, 64), (0x39, 31)],
        "00",
        YES,
    ),
    ("the longest question", 1, 32, FULL, "00", YES_REASON_1),
    (
        "the second full, the first not",
        1,
        0,
        &[(0x22, 64), (0x23, 31)],
        "12 00 00 | 00",
        NO_REASON_3,
    ),
];

/// Name, kind, constants, clauses, the tail, and the refusal of the tail's first command.
const ONE_PAST: &[(&str, u8, usize, Clauses, &str, u8)] = &[
    ("6: a 33rd constant", 0, 32, &[], "E | 00", 6),
    (
        "2 before 6: a 33rd constant cut short",
        0,
        32,
        &[],
        "03 00 00 00",
        2,
    ),
    (
        "4 before 6: a 33rd constant after a clause",
        0,
        32,
        &[(0x12, 1)],
        "E | 00",
        4,
    ),
    (
        "8: the last constant not defined",
        0,
        31,
        &[],
        "12 00 3F | 00",
        8,
    ),
    ("7: a 65th join", 0, 0, &[(0x10, 64)], "10 00 00 00 | 00", 7),
    (
        "7: a 65th, an equality",
        0,
        0,
        &[(0x10, 40), (0x12, 24)],
        "12 00 00 | 00",
        7,
    ),
    (
        "7: a 65th of the second",
        1,
        0,
        &[(0x20, 1), (0x22, 63)],
        "20 00 00 00 | 00",
        7,
    ),
    ("7 before 8", 0, 0, &[(0x12, 64)], "12 00 FF | 00", 7),
    ("2 before 7", 0, 0, &[(0x12, 64)], "12 00", 2),
    ("9 before 7 and 8", 0, 0, &[(0x12, 64)], "22 00 FF | 00", 9),
    (
        "7: a 32nd disequation",
        0,
        0,
        &[(0x13, 31)],
        "13 00 00 | 00",
        7,
    ),
    (
        "7: a 32nd, a negated join",
        0,
        0,
        &[(0x13, 30), (0x11, 1)],
        "11 00 00 00 | 00",
        7,
    ),
    (
        "7: a 32nd of the second",
        1,
        0,
        &[(0x21, 31)],
        "23 00 00 | 00",
        7,
    ),
    (
        "7: a 65th, that may write",
        0,
        0,
        &[(0x10, 20), (0x12, 20), (0x32, 24)],
        "30 00 | 00",
        7,
    ),
    (
        "7: a 65th, held together",
        0,
        0,
        &[(0x30, 63), (0x12, 1)],
        "32 00 00 | 00",
        7,
    ),
    (
        "7: a 65th, an equality after policies",
        0,
        0,
        &[(0x30, 32), (0x32, 32)],
        "12 00 00 | 00",
        7,
    ),
    (
        "7: a 65th of the second, that may write",
        1,
        0,
        &[(0x3A, 60), (0x22, 4), (0x32, 64)],
        "38 00 | 00",
        7,
    ),
    (
        "7: a 65th of the second, held together",
        1,
        0,
        &[(0x38, 64)],
        "3A 00 00 | 00",
        7,
    ),
    (
        "7: a 32nd, that may read",
        0,
        0,
        &[(0x13, 30), (0x11, 1)],
        "31 00 | 00",
        7,
    ),
    (
        "7: a 32nd, a negated equality after policies",
        0,
        0,
        &[(0x31, 31)],
        "13 00 00 | 00",
        7,
    ),
    (
        "7: a 32nd of the second, that may read",
        1,
        0,
        &[(0x31, 31), (0x23, 15), (0x39, 16)],
        "39 00 | 00",
        7,
    ),
    ("7 before 8: 30", 0, 0, &[(0x30, 64)], "30 FF | 00", 7),
    ("2 before 7: 32", 0, 0, &[(0x32, 64)], "32 00", 2),
    ("9 before 7 and 8: 38", 0, 0, &[(0x30, 64)], "38 FF | 00", 9),
    (
        "2: the longest question without its end",
        1,
        32,
        FULL,
        "",
        2,
    ),
    (
        "7: one past in the first, both full",
        1,
        32,
        FULL,
        "12 00 00 | 00",
        7,
    ),
    (
        "7: one past in the second, both full",
        1,
        32,
        FULL,
        "23 00 00 | 00",
        7,
    ),
];

/// A question with one free variable: how long it is before its tail, and all of it.
fn long(kind: u8, constants: usize, clauses: Clauses, tail: &str) -> (usize, Vec<u8>) {
    let mut bytes = vec![0x01, kind, 0x01, 0x00];
    for _ in 0..constants {
        bytes.extend([0x03, 0x01, 0x02, 0x03, 0x04]);
    }
    for &(command, times) in clauses {
        let terms = operand_count(command).expect("a clause");
        for _ in 0..times {
            bytes.push(command);
            bytes.resize(bytes.len() + terms, 0);
        }
    }
    let before = bytes.len();
    bytes.extend(worked::bytes(tail));
    (before, bytes)
}

pub fn at_the_edge() -> impl Iterator<Item = Fault> {
    AT_THE_EDGE
        .iter()
        .map(|&(name, kind, constants, clauses, tail, number)| {
            let (_, bytes) = long(kind, constants, clauses, tail);
            Fault::accepted(name, bytes, number)
        })
}

pub fn one_past() -> impl Iterator<Item = Fault> {
    ONE_PAST
        .iter()
        .map(|&(name, kind, constants, clauses, tail, number)| {
            let (place, bytes) = long(kind, constants, clauses, tail);
            Fault::refused(name, bytes, Refusal { number, place })
        })
}

/// The longest question with more behind it: the place is 925.
pub fn after_the_longest() -> impl Iterator<Item = Fault> {
    let refusal = Refusal {
        number: 10,
        place: 925,
    };
    [1, 98, 99, 100, 2000, 70_000].into_iter().map(move |more| {
        let (_, mut bytes) = long(1, 32, FULL, "00");
        bytes.resize(bytes.len() + more, 0x00);
        Fault::refused("10: bytes after the longest question", bytes, refusal)
    })
}
