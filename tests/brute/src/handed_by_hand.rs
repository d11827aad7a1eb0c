//! Rows that are handed over, worked by hand: a question, the tree text of each free variable's row, and the number that judging is to give.
//! Questions are written as in `worked`.

use crate::judge::{ANSWER_BYTES, ROW_BYTES};
use crate::tree::row_of_tree;
use crate::tree_text::tree_of_text;
use crate::worked::{FIVE_NOT_EMPTY, THREE_NOT_EMPTY, TWO_READERS};

/// Name, question, the rows' tree texts, and the number.
pub type Handed = (&'static str, &'static str, &'static [&'static str], u64);

const ACCEPTED: u64 = 1;
const EXTENDS: u64 = 3;

/// The number for rows that break this disequation and no clause before it.
const fn broken(clause: u64) -> u64 {
    2 + (clause << 32)
}

/// The numbers for rows that break this positive clause and none before it, by the way in which it fails and the leftmost leaf where it does.
const fn overlap(clause: u64, leaf: u64) -> u64 {
    broken(clause) + (1 << 40) + (leaf << 48)
}

const fn surplus(clause: u64, leaf: u64) -> u64 {
    broken(clause) + (2 << 40) + (leaf << 48)
}

const fn shortfall(clause: u64, leaf: u64) -> u64 {
    broken(clause) + (3 << 40) + (leaf << 48)
}

/// All 12 rows, of which the first have these tree texts.
pub fn rows(texts: &[&str]) -> Vec<u8> {
    let mut rows = vec![0; ANSWER_BYTES];
    for (row, text) in rows.chunks_mut(ROW_BYTES).zip(texts) {
        let tree = tree_of_text(text.as_bytes()).expect("a tree text");
        row.copy_from_slice(&row_of_tree(&tree));
    }
    rows
}

/// One leaf of 1,024 is full, the first, or the second of them; all are but the last.
const FIRST_LEAF: &str = "((((((((((*o)o)o)o)o)o)o)o)o)o)";
const SECOND_LEAF: &str = "((((((((((o*)o)o)o)o)o)o)o)o)o)";
const FIRST_TWO: &str = "(((((((((*o)o)o)o)o)o)o)o)o)";
const ALL_BUT_LAST: &str = "(*(*(*(*(*(*(*(*(*(*o))))))))))";

pub const SPLIT: &str = "01 01 01 02 | E | 13 00 20 | 20 01 02 00 | 23 01 20 | 23 02 20 | 00";
/// v0 is split into three.
pub const THREE_PARTS: &str =
    "01 01 01 04 | E | 13 00 20 | 20 01 02 03 | 20 03 04 00 | 23 01 20 | 23 02 20 | 23 04 20 | 00";
/// Ten own readers are held together, and beside v0.
pub const TEN_READERS: &str = "01 01 01 0A \
    | 3A 00 01 | 3A 00 02 | 3A 00 03 | 3A 00 04 | 3A 00 05 | 3A 00 06 | 3A 00 07 | 3A 00 08 | 3A 00 09 | 3A 00 0A \
    | 3A 01 02 | 3A 01 03 | 3A 01 04 | 3A 01 05 | 3A 01 06 | 3A 01 07 | 3A 01 08 | 3A 01 09 | 3A 01 0A \
    | 3A 02 03 | 3A 02 04 | 3A 02 05 | 3A 02 06 | 3A 02 07 | 3A 02 08 | 3A 02 09 | 3A 02 0A \
    | 3A 03 04 | 3A 03 05 | 3A 03 06 | 3A 03 07 | 3A 03 08 | 3A 03 09 | 3A 03 0A \
    | 3A 04 05 | 3A 04 06 | 3A 04 07 | 3A 04 08 | 3A 04 09 | 3A 04 0A \
    | 3A 05 06 | 3A 05 07 | 3A 05 08 | 3A 05 09 | 3A 05 0A | 3A 06 07 | 3A 06 08 | 3A 06 09 | 3A 06 0A \
    | 3A 07 08 | 3A 07 09 | 3A 07 0A | 3A 08 09 | 3A 08 0A | 3A 09 0A \
    | 39 01 | 39 02 | 39 03 | 39 04 | 39 05 | 39 06 | 39 07 | 39 08 | 39 09 | 39 0A | 00";
const LEFT_JOIN: &str = "01 01 02 01 | E R L | 13 00 20 | 12 01 21 | 20 22 02 00 | 00";
const NOT_LEFT: &str = "01 00 02 00 | F L E | 10 00 01 20 | 13 00 21 | 13 01 22 | 00";
const ENTAILS_NOT_EMPTY: &str = "01 01 02 00 | F E | 10 00 01 20 | 23 00 21 | 00";
const NOT_A_UNIT: &str = "01 00 02 00 | 11 00 01 00 | 00";
const IN_ORDER: &str = "01 00 01 00 | E F | 13 00 20 | 12 00 21 | 13 00 21 | 00";
/// The first system's clauses, from 0: v0 is full; v1 is not empty; v0 join v1 is full. Those of the second stand between them.
const MIXED: &str = "01 01 02 00 | E F | 22 00 20 | 12 00 21 | 23 01 20 | 13 01 20 | 20 00 00 00 | 10 00 01 21 | 00";
const WRITER_AND_READER: &str = "01 00 02 00 | 30 00 | 31 01 | 32 00 01 | 00";
const READER_BESIDE: &str = "01 01 01 01 | F | 13 00 20 | 39 01 | 3A 00 01 | 00";
const LAST_OF_32: &str = "01 00 01 00 | 03 00 00 00 80 | 12 00 20 | 00";
const TWO_NAMED: &str = "01 00 01 00 | 30xT L F | 10 00 3E 3F | 00";
const ENTAILS_RIGHT: &str = "01 01 01 00 | T R | 22 00 21 | 00";

/// The questions of SPEC 12.
const OF_SPEC: &[Handed] = &[
    ("no variable, no clause", "01 00 00 00 | 00", &[], ACCEPTED),
    (
        "v0 join v0 is full: empty",
        "01 00 01 00 | F | 10 00 00 20 | 00",
        &["o"],
        shortfall(0, 0),
    ),
    (
        "v0 join v0 is full: undefined",
        "01 00 01 00 | F | 10 00 00 20 | 00",
        &["*"],
        overlap(0, 0),
    ),
    (
        "v0 join v0 is v1, not empty",
        "01 00 02 00 | E | 10 00 00 01 | 13 01 20 | 00",
        &["o", "o"],
        broken(1),
    ),
    (
        "v0 join v0 is v1, another",
        "01 00 02 00 | E | 10 00 00 01 | 13 01 20 | 00",
        &["o", "*"],
        shortfall(0, 0),
    ),
    (
        "three not empty, at height 1",
        THREE_NOT_EMPTY,
        &["(*o)", "(o*)", "*"],
        ACCEPTED,
    ),
    (
        "three not empty, at height 10",
        THREE_NOT_EMPTY,
        &[FIRST_LEAF, SECOND_LEAF, FIRST_TWO],
        ACCEPTED,
    ),
    (
        "three not empty, v1 is",
        THREE_NOT_EMPTY,
        &["*", "o", "*"],
        broken(2),
    ),
    (
        "three not empty, v0 and v1 overlap",
        THREE_NOT_EMPTY,
        &["*", "*", "*"],
        overlap(0, 0),
    ),
    (
        "five not empty",
        FIVE_NOT_EMPTY,
        &["((*o)o)", "((o*)o)", "(*o)", "(o*)", "*"],
        ACCEPTED,
    ),
    (
        "five not empty, v3 is",
        FIVE_NOT_EMPTY,
        &["((*o)o)", "((o*)o)", "(*o)", "o", "(*o)"],
        broken(5),
    ),
    ("v0 not L: R", NOT_LEFT, &["(o*)", "(*o)"], ACCEPTED),
    ("v0 not L: L", NOT_LEFT, &["(*o)", "(o*)"], broken(1)),
    ("v0 not L: full", NOT_LEFT, &["*", "o"], broken(2)),
    (
        "v0 not L: the join is not full",
        NOT_LEFT,
        &["(*o)", "o"],
        shortfall(0, 512),
    ),
    (
        "not (full join full is full)",
        "01 00 00 00 | F | 11 20 20 20 | 00",
        &[],
        ACCEPTED,
    ),
    (
        "the first has no solution",
        "01 01 01 00 | F E | 10 00 00 20 | 22 00 21 | 00",
        &["o"],
        shortfall(0, 0),
    ),
    (
        "L join own v2 is v0: R",
        LEFT_JOIN,
        &["(o*)", "(o*)"],
        ACCEPTED,
    ),
    (
        "L join own v2 is v0: full",
        LEFT_JOIN,
        &["*", "(o*)"],
        EXTENDS,
    ),
    (
        "L join own v2 is v0: L",
        LEFT_JOIN,
        &["(*o)", "(o*)"],
        EXTENDS,
    ),
    (
        "L join own v2 is v0: over L, and taller",
        LEFT_JOIN,
        &["(*(o(*o)))", "(o*)"],
        EXTENDS,
    ),
    (
        "L join own v2 is v0: less than L",
        LEFT_JOIN,
        &["((*o)*)", "(o*)"],
        ACCEPTED,
    ),
    (
        "L join own v2 is v0: one leaf less than L",
        LEFT_JOIN,
        &["((((((((((o*)*)*)*)*)*)*)*)*)o)", "(o*)"],
        ACCEPTED,
    ),
    (
        "L join own v2 is v0: empty",
        LEFT_JOIN,
        &["o", "(o*)"],
        broken(0),
    ),
    (
        "L join own v2 is v0: v1 is not R",
        LEFT_JOIN,
        &["*", "(*o)"],
        surplus(1, 0),
    ),
    (
        "v0 split: own shares of height 1 beside height 0",
        SPLIT,
        &["*"],
        EXTENDS,
    ),
    (
        "v0 split: own shares of height 2 beside height 1",
        SPLIT,
        &["(*o)"],
        EXTENDS,
    ),
    (
        "v0 split: own shares of height 11",
        SPLIT,
        &[FIRST_LEAF],
        EXTENDS,
    ),
    ("v0 split: empty", SPLIT, &["o"], broken(0)),
    (
        "v0 join v1 is full entails v0 not empty: empty",
        ENTAILS_NOT_EMPTY,
        &["o", "*"],
        ACCEPTED,
    ),
    (
        "v0 join v1 is full entails v0 not empty: full",
        ENTAILS_NOT_EMPTY,
        &["*", "o"],
        EXTENDS,
    ),
    (
        "v0 join v1 is full entails v0 not empty: half",
        ENTAILS_NOT_EMPTY,
        &["(o*)", "(*o)"],
        EXTENDS,
    ),
    (
        "v0 join v1 is full entails v0 not empty: neither",
        ENTAILS_NOT_EMPTY,
        &["o", "o"],
        shortfall(0, 0),
    ),
    (
        "v0 is L entails v0 not empty: L",
        "01 01 01 00 | L E | 12 00 20 | 23 00 21 | 00",
        &["(*o)"],
        EXTENDS,
    ),
    (
        "v0 is L entails v0 not empty: full",
        "01 01 01 00 | L E | 12 00 20 | 23 00 21 | 00",
        &["*"],
        surplus(0, 512),
    ),
    (
        "v0 is L entails v0 is full",
        "01 01 01 00 | L F | 12 00 20 | 22 00 21 | 00",
        &["(*o)"],
        ACCEPTED,
    ),
    (
        "the printing program's example",
        "01 00 01 00 | L F | 10 00 20 21 | 00",
        &["(o*)"],
        ACCEPTED,
    ),
    (
        "the printing program's example: L",
        "01 00 01 00 | L F | 10 00 20 21 | 00",
        &["(*o)"],
        overlap(0, 0),
    ),
    (
        "a writer and a reader held together",
        WRITER_AND_READER,
        &["*", "*"],
        overlap(2, 0),
    ),
    (
        "a writer and an empty share",
        WRITER_AND_READER,
        &["*", "o"],
        broken(1),
    ),
    (
        "half a writer",
        WRITER_AND_READER,
        &["(*o)", "(o*)"],
        shortfall(0, 512),
    ),
    ("two readers", TWO_READERS, &["(o*)", "(*o)"], ACCEPTED),
    ("two writers", TWO_READERS, &["*", "*"], overlap(2, 0)),
    (
        "v0 may read entails v0 may write: half",
        "01 01 01 00 | 31 00 | 38 00 | 00",
        &["(o*)"],
        ACCEPTED,
    ),
    (
        "v0 may read entails v0 may write: full",
        "01 01 01 00 | 31 00 | 38 00 | 00",
        &["*"],
        EXTENDS,
    ),
    (
        "v0 may read entails v0 may write: empty",
        "01 01 01 00 | 31 00 | 38 00 | 00",
        &["o"],
        broken(0),
    ),
    (
        "v0 may write beside an own reader",
        "01 01 01 01 | 30 00 | 39 01 | 3A 00 01 | 00",
        &["*"],
        ACCEPTED,
    ),
    (
        "v0 is not full beside an own reader",
        READER_BESIDE,
        &["(*o)"],
        EXTENDS,
    ),
    (
        "v0 has one empty leaf beside an own reader",
        READER_BESIDE,
        &[ALL_BUT_LAST],
        EXTENDS,
    ),
    (
        "v0 is full beside an own reader",
        READER_BESIDE,
        &["*"],
        broken(0),
    ),
];

/// One for each word that is easily misread.
const OF_WORDS: &[Handed] = &[
    (
        "a disequation holds at one leaf of 1,024",
        "01 00 01 00 | F | 13 00 20 | 00",
        &[ALL_BUT_LAST],
        ACCEPTED,
    ),
    (
        "a disequation holds at no leaf",
        "01 00 01 00 | F | 13 00 20 | 00",
        &["*"],
        broken(0),
    ),
    (
        "a positive clause fails at one leaf of 1,024",
        "01 00 01 00 | F | 12 00 20 | 00",
        &[ALL_BUT_LAST],
        shortfall(0, 1023),
    ),
    (
        "no leaf meets both disequations",
        "01 00 01 00 | E F | 13 00 20 | 13 00 21 | 00",
        &["(*o)"],
        ACCEPTED,
    ),
    (
        "a negated join that is undefined",
        NOT_A_UNIT,
        &["*", "*"],
        ACCEPTED,
    ),
    (
        "a negated join that is undefined at one leaf",
        NOT_A_UNIT,
        &[FIRST_LEAF, FIRST_LEAF],
        ACCEPTED,
    ),
    (
        "a negated join that is another share",
        NOT_A_UNIT,
        &["(*o)", "(o*)"],
        ACCEPTED,
    ),
    (
        "a negated join that is the share",
        NOT_A_UNIT,
        &["*", "o"],
        broken(0),
    ),
    (
        "two disequations of the second at two leaves",
        "01 01 01 00 | L E F | 12 00 20 | 23 00 21 | 23 00 22 | 00",
        &["(*o)"],
        EXTENDS,
    ),
    (
        "two disequations of the second, one cannot be had",
        "01 01 01 00 | E F | 23 00 20 | 23 00 21 | 00",
        &["*"],
        ACCEPTED,
    ),
    (
        "v0 split into three: own shares of height 2 beside height 0",
        THREE_PARTS,
        &["*"],
        EXTENDS,
    ),
    (
        "v0 split into three: own shares of height 12",
        THREE_PARTS,
        &[FIRST_LEAF],
        EXTENDS,
    ),
    ("v0 split into three: empty", THREE_PARTS, &["o"], broken(0)),
    (
        "ten own readers beside v0: own shares of height 4 beside height 0",
        TEN_READERS,
        &["o"],
        EXTENDS,
    ),
    (
        "ten own readers beside v0: own shares of height 14",
        TEN_READERS,
        &[ALL_BUT_LAST],
        EXTENDS,
    ),
    (
        "ten own readers beside v0: full",
        TEN_READERS,
        &["*"],
        ACCEPTED,
    ),
    (
        "an own share beside no row",
        "01 01 00 01 | E F | 23 00 20 | 23 00 21 | 00",
        &[],
        EXTENDS,
    ),
    (
        "an own share differs from itself",
        "01 01 00 01 | 23 00 00 | 00",
        &[],
        ACCEPTED,
    ),
    ("nothing to extend", "01 01 01 00 | 00", &["(o*)"], EXTENDS),
    (
        "own variables that no clause names",
        "01 01 00 0C | 00",
        &[],
        EXTENDS,
    ),
    (
        "in question order: the disequation before",
        IN_ORDER,
        &["o"],
        broken(0),
    ),
    (
        "in question order: the positive clause between",
        IN_ORDER,
        &["(*o)"],
        shortfall(1, 512),
    ),
    (
        "in question order: the disequation behind",
        IN_ORDER,
        &["*"],
        broken(2),
    ),
    (
        "two systems mixed: number 0",
        MIXED,
        &["o", "*"],
        shortfall(0, 0),
    ),
    ("two systems mixed: number 1", MIXED, &["*", "o"], broken(1)),
    (
        "two systems mixed: number 2",
        MIXED,
        &["*", "*"],
        overlap(2, 0),
    ),
    (
        "the last of 32 leaves",
        LAST_OF_32,
        &["(o(o(o(o(o*)))))"],
        ACCEPTED,
    ),
    (
        "the first of 32 leaves for the last",
        LAST_OF_32,
        &["(((((*o)o)o)o)o)"],
        surplus(0, 0),
    ),
    (
        "half of the last of 32 leaves",
        LAST_OF_32,
        &["(o(o(o(o(o(*o))))))"],
        shortfall(0, 1008),
    ),
    (
        "30 of 32 constants are not named: what the left half lacks",
        TWO_NAMED,
        &["(o*)"],
        ACCEPTED,
    ),
    (
        "30 of 32 constants are not named: more than it lacks",
        TWO_NAMED,
        &["*"],
        overlap(0, 0),
    ),
    (
        "T is not named, R is: R extends",
        ENTAILS_RIGHT,
        &["(o*)"],
        EXTENDS,
    ),
    (
        "T is not named, R is: T does not extend",
        ENTAILS_RIGHT,
        &["(((((*o)o)o)o)o)"],
        ACCEPTED,
    ),
];

/// v0 join v1 is v2.
const JOIN: &str = "01 00 03 00 | 10 00 01 02 | 00";
/// v0 is L, and L is v0.
const IS_LEFT: &str = "01 00 01 00 | L | 12 00 20 | 00";
const LEFT_IS: &str = "01 00 01 00 | L | 12 20 00 | 00";
const TOGETHER: &str = "01 00 02 00 | 32 00 01 | 00";
const TWO_WRITERS: &str = "01 00 02 00 | 30 00 | 30 01 | 00";
/// The first system: v0 is not full; v0 is L. Those of the second stand around them.
const MIXED_LEFT: &str = "01 01 01 01 | F L | 38 00 | 13 00 20 | 3A 00 01 | 12 00 21 | 39 01 | 00";
const LAST_LEAF: &str = "(o(o(o(o(o(o(o(o(o(o*))))))))))";

/// Each way, each clause that can fail so, and which leaf counts.
const OF_WAYS: &[Handed] = &[
    (
        "both parts are full, and the sum is",
        JOIN,
        &["(o*)", "(o*)", "(o*)"],
        overlap(0, 512),
    ),
    (
        "both parts are full, and the sum is empty",
        JOIN,
        &["((o*)o)", "((o*)o)", "o"],
        overlap(0, 256),
    ),
    (
        "the first part alone is full, and the sum is empty",
        JOIN,
        &["(o(*o))", "o", "o"],
        surplus(0, 512),
    ),
    (
        "the second part alone is full, and the sum is empty",
        JOIN,
        &["(*o)", "(o(o*))", "(*o)"],
        surplus(0, 768),
    ),
    (
        "both parts are empty, and the sum is full",
        JOIN,
        &["((*o)o)", "o", "(*o)"],
        shortfall(0, 256),
    ),
    (
        "a surplus, then an overlap, then a shortfall",
        JOIN,
        &["((o*)(*o))", "(o(*o))", "(o(o*))"],
        surplus(0, 256),
    ),
    (
        "a shortfall, then a surplus, then an overlap",
        JOIN,
        &["(o*)", "(o(o*))", "(*o)"],
        shortfall(0, 0),
    ),
    (
        "an overlap at the second leaf, and surplus behind it",
        JOIN,
        &[SECOND_LEAF, "((((((((((o*)*)o)o)o)o)o)o)o)o)", SECOND_LEAF],
        overlap(0, 1),
    ),
    (
        "a surplus, and an overlap beside it in the same word",
        JOIN,
        &[FIRST_TWO, SECOND_LEAF, "o"],
        surplus(0, 0),
    ),
    (
        "an overlap, and a surplus beside it in the same word",
        JOIN,
        &[FIRST_TWO, FIRST_LEAF, "o"],
        overlap(0, 0),
    ),
    (
        "a shortfall, and an overlap beside it in the same word",
        JOIN,
        &[SECOND_LEAF, SECOND_LEAF, FIRST_LEAF],
        shortfall(0, 0),
    ),
    (
        "v0 join v1 is v0: both are full",
        "01 00 02 00 | 10 00 01 00 | 00",
        &["(*o)", "((o*)o)"],
        overlap(0, 256),
    ),
    (
        "v0 join v1 is v0: v1 alone is full",
        "01 00 02 00 | 10 00 01 00 | 00",
        &["(*o)", "(o(o*))"],
        surplus(0, 768),
    ),
    (
        "v0 join v1 is v1: v0 alone is full",
        "01 00 02 00 | 10 00 01 01 | 00",
        &["(o(o*))", "(*o)"],
        surplus(0, 768),
    ),
    (
        "v0 join v0 is v1: both are full, and v1 is empty",
        "01 00 02 00 | 10 00 00 01 | 00",
        &["(o*)", "o"],
        overlap(0, 512),
    ),
    (
        "v0 join v0 is v1: v1 alone is full, further left",
        "01 00 02 00 | 10 00 00 01 | 00",
        &["(o*)", "((o*)o)"],
        shortfall(0, 256),
    ),
    (
        "a surplus at the last leaf",
        JOIN,
        &["o", LAST_LEAF, "o"],
        surplus(0, 1023),
    ),
    (
        "a part that is a constant",
        "01 00 02 00 | R | 10 00 20 01 | 00",
        &["o", "(o(*o))"],
        surplus(0, 768),
    ),
    (
        "two constants as parts, the sum a third",
        "01 00 00 00 | L R F | 10 20 21 22 | 10 20 21 20 | 00",
        &[],
        surplus(1, 512),
    ),
    (
        "two constants as parts overlap",
        "01 00 00 00 | Q L F | 10 20 21 22 | 00",
        &[],
        overlap(0, 0),
    ),
    ("more than L is a surplus", IS_LEFT, &["*"], surplus(0, 512)),
    (
        "less than L is a shortfall",
        IS_LEFT,
        &["((*o)o)"],
        shortfall(0, 256),
    ),
    ("L is more: a shortfall", LEFT_IS, &["*"], shortfall(0, 512)),
    (
        "L is less: a surplus",
        LEFT_IS,
        &["((*o)o)"],
        surplus(0, 256),
    ),
    (
        "two constants that are equal at the left",
        "01 00 00 00 | Q L | 12 21 20 | 00",
        &[],
        surplus(0, 256),
    ),
    (
        "what is full but for its second leaf",
        "01 00 01 00 | 30 00 | 00",
        &["((((((((((*o)*)*)*)*)*)*)*)*)*)"],
        shortfall(0, 1),
    ),
    (
        "a constant is not full",
        "01 00 00 00 | L | 30 20 | 00",
        &[],
        shortfall(0, 512),
    ),
    (
        "held together but for the last leaf",
        TOGETHER,
        &["*", LAST_LEAF],
        overlap(0, 1023),
    ),
    (
        "held together but for a quarter, with nothing beside it",
        TOGETHER,
        &["((o*)o)", "((o*)o)"],
        overlap(0, 256),
    ),
    (
        "the same share held together with itself",
        "01 00 01 00 | 32 00 00 | 00",
        &["(o(o*))"],
        overlap(0, 768),
    ),
    (
        "two broken clauses: the higher fails further left",
        TWO_WRITERS,
        &["(*o)", "o"],
        shortfall(0, 512),
    ),
    (
        "two broken clauses: the lower holds",
        TWO_WRITERS,
        &["*", "(*(*o))"],
        shortfall(1, 768),
    ),
    (
        "a broken disequation before a positive clause",
        "01 00 01 00 | 31 00 | 30 00 | 00",
        &["o"],
        broken(0),
    ),
    (
        "a positive clause before a broken disequation",
        "01 00 01 00 | 30 00 | 31 00 | 00",
        &["o"],
        shortfall(0, 0),
    ),
    (
        "of an entailment: the disequation",
        MIXED_LEFT,
        &["*"],
        broken(0),
    ),
    (
        "of an entailment: a surplus",
        MIXED_LEFT,
        &["(*(*o))"],
        surplus(1, 512),
    ),
    (
        "of an entailment: a shortfall",
        MIXED_LEFT,
        &["((o*)o)"],
        shortfall(1, 0),
    ),
    (
        "of an entailment: an overlap",
        "01 01 01 00 | L | 22 00 20 | 32 00 20 | 00",
        &["((o*)*)"],
        overlap(0, 256),
    ),
];

pub fn all() -> impl Iterator<Item = &'static Handed> {
    OF_SPEC.iter().chain(OF_WORDS).chain(OF_WAYS)
}

/// Name, question, how many bytes of rows, all zero but for one bit, the number of that, if any, and the number that judging is to give.
pub type Refused = (&'static str, &'static str, usize, Option<usize>, u64);

const ONE_AND_ONE: &str = "01 01 01 01 | 00";

pub const REFUSED: &[Refused] = &[
    ("18: no rows", ONE_AND_ONE, 0, None, 0x1200),
    ("18: 1,535 bytes", ONE_AND_ONE, 1535, None, 0x1200),
    ("18: 1,537 bytes", ONE_AND_ONE, 1537, None, 0x1200),
    (
        "18: all 12 variables are free",
        "01 00 0C 00 | 00",
        1535,
        None,
        0x1200,
    ),
    (
        "18 before 19: a bit in the row of an own variable",
        ONE_AND_ONE,
        1535,
        Some(1024),
        0x1200,
    ),
    (
        "18 before 19: a bit behind the rows",
        ONE_AND_ONE,
        1537,
        Some(12_288),
        0x1200,
    ),
    (
        "19: the first bit of the row of an own variable",
        ONE_AND_ONE,
        1536,
        Some(1024),
        0x1300,
    ),
    (
        "19: the last bit of the row of an own variable",
        ONE_AND_ONE,
        1536,
        Some(2047),
        0x1300,
    ),
    (
        "19: the first bit of the row of an absent variable",
        ONE_AND_ONE,
        1536,
        Some(2048),
        0x1300,
    ),
    (
        "19: the first bit of row 11",
        "01 00 0B 00 | 00",
        1536,
        Some(11_264),
        0x1300,
    ),
    (
        "19: the last bit of all",
        "01 00 0B 00 | 00",
        1536,
        Some(12_287),
        0x1300,
    ),
    ("19: no variable", "01 00 00 00 | 00", 1536, Some(0), 0x1300),
    (
        "the last bit of the row of a free variable",
        "01 00 01 00 | 00",
        1536,
        Some(1023),
        ACCEPTED,
    ),
    (
        "the last bit of all, of a free variable",
        "01 00 0C 00 | 00",
        1536,
        Some(12_287),
        ACCEPTED,
    ),
    ("1 before 18", "", 0, None, 0x0100),
    ("2 before 18, at 4", "01 01 01 01", 1535, None, 0x0004_0200),
    (
        "3 before 19, at 4",
        "01 01 01 01 | FF",
        1536,
        Some(1024),
        0x0004_0300,
    ),
    (
        "5 before 19",
        "01 01 06 07 | 00",
        1536,
        Some(12_287),
        0x0500,
    ),
    (
        "8 before 18, at 4",
        "01 00 01 00 | 12 00 01 | 00",
        0,
        None,
        0x0004_0800,
    ),
    (
        "9 before 19, at 7",
        "01 00 01 00 | 12 00 00 | 22 00 00 | 00",
        1536,
        Some(1024),
        0x0007_0900,
    ),
    (
        "10 before 18, at 5",
        "01 01 01 01 | 00 00",
        0,
        None,
        0x0005_0A00,
    ),
];
