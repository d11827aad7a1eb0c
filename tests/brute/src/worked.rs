//! Questions worked by hand: those of SPEC 12, the properties of figure 1 of Le, Nguyen, Chin and Hobor,
//! "A certified decision procedure for tree shares", one for each mistake of SPEC 13, those for each word of the
//! fixed solution, those of permission policies, and those of which constants count for the height. The bytes are written out; `E`, `F`, `L`, `R`, `Q`, `T`, `U`
//! stand for the commands that define the empty share, the full one, the left half, the right half, the left quarter, the leftmost of 32 leaves and the other 31, `30xT`
//! for 30 commands in a row, and `|` only parts the commands for the reader.

use crate::due::packed_outcome;
use crate::single::Outcome;

/// A question, its answer, and the tree texts of the fixed solution where one is shown.
pub struct Worked {
    pub name: &'static str,
    pub bytes: &'static str,
    pub yes: bool,
    pub height: u32,
    pub reason: u8,
    pub disequation: usize,
    pub shown: Option<&'static [&'static str]>,
}

impl Worked {
    /// The number that asking is to give.
    pub fn number(&self) -> u64 {
        packed_outcome(&Outcome {
            yes: self.yes,
            height: self.height,
            reason: self.reason,
            disequation: self.disequation,
        })
    }
}

const fn yes(
    name: &'static str,
    bytes: &'static str,
    height: u32,
    shown: &'static [&'static str],
) -> Worked {
    Worked {
        name,
        bytes,
        yes: true,
        height,
        reason: 0,
        disequation: 0,
        shown: Some(shown),
    }
}

const fn unshown(name: &'static str, bytes: &'static str, yes: bool, reason: u8) -> Worked {
    Worked {
        name,
        bytes,
        yes,
        height: 0,
        reason,
        disequation: 0,
        shown: None,
    }
}

const fn not_entailed(
    name: &'static str,
    bytes: &'static str,
    height: u32,
    (reason, disequation): (u8, usize),
    shown: &'static [&'static str],
) -> Worked {
    Worked {
        name,
        bytes,
        yes: false,
        height,
        reason,
        disequation,
        shown: Some(shown),
    }
}

pub const THREE_NOT_EMPTY: &str =
    "01 00 03 00 | E | 10 00 01 02 | 13 00 20 | 13 01 20 | 13 02 20 | 00";
pub const FIVE_NOT_EMPTY: &str =
    "01 00 05 00 | E | 10 00 01 02 | 10 02 03 04 | 13 00 20 | 13 01 20 \
                                  | 13 02 20 | 13 03 20 | 13 04 20 | 00";
pub const TWO_READERS: &str = "01 00 02 00 | 31 00 | 31 01 | 32 00 01 | 00";

/// The questions of SPEC 12 without permission policies, but for 12.22, 12.25 and 12.26, which stand in `NAMED`. A name starts with the question's number there.
pub const WORKED: &[Worked] = &[
    yes(
        "12.13: the printing program's example",
        "01 00 01 00 03 FF FF 00 00 03 FF FF FF FF 10 00 20 21 00",
        1,
        &["(o*)"],
    ),
    yes("12.1: no variable, no clause", "01 00 00 00 | 00", 0, &[]),
    unshown(
        "12.2: v0 join v0 is full",
        "01 00 01 00 | F | 10 00 00 20 | 00",
        false,
        0,
    ),
    unshown(
        "12.3: v0 join v0 is v1, v1 not empty",
        "01 00 02 00 | E | 10 00 00 01 | 13 01 20 | 00",
        false,
        0,
    ),
    yes(
        "12.4: v0 join v1 is v2, none empty",
        THREE_NOT_EMPTY,
        2,
        &["((*o)o)", "((o*)(*o))", "(*(*o))"],
    ),
    yes(
        "12.5: two joins, none of five empty",
        FIVE_NOT_EMPTY,
        3,
        &[
            "(((*o)o)o)",
            "(((o*)(*o))o)",
            "((*(*o))o)",
            "((o(o*))((*o)o))",
            "(*((*o)o))",
        ],
    ),
    yes(
        "12.6: v0 join v1 is full, v0 not L, v1 not empty",
        "01 00 02 00 | F L E | 10 00 01 20 | 13 00 21 | 13 01 22 | 00",
        2,
        &["o", "*"],
    ),
    yes(
        "12.7: not (full join full is full)",
        "01 00 00 00 | F | 11 20 20 20 | 00",
        0,
        &[],
    ),
    unshown(
        "12.8: v0 join v0 is full entails v0 empty",
        "01 01 01 00 | F E | 10 00 00 20 | 22 00 21 | 00",
        true,
        1,
    ),
    not_entailed(
        "12.9: v0 not empty, v1 is R, entails L join own v2 is v0",
        "01 01 02 01 | E R L | 13 00 20 | 12 01 21 | 20 22 02 00 | 00",
        2,
        (2, 0),
        &["((o*)o)", "(o*)"],
    ),
    unshown(
        "12.10: v0 not empty entails own v1 join own v2 is v0, neither empty",
        "01 01 01 02 | E | 13 00 20 | 20 01 02 00 | 23 01 20 | 23 02 20 | 00",
        true,
        0,
    ),
    not_entailed(
        "12.11: v0 join v1 is full entails v0 not empty",
        "01 01 02 00 | F E | 10 00 01 20 | 23 00 21 | 00",
        0,
        (3, 0),
        &["o", "*"],
    ),
    unshown(
        "12.12: v0 is L entails v0 not empty",
        "01 01 01 00 | L E | 12 00 20 | 23 00 21 | 00",
        true,
        0,
    ),
    not_entailed(
        "12.14: v0 is L entails v0 is full",
        "01 01 01 00 | L F | 12 00 20 | 22 00 21 | 00",
        1,
        (2, 0),
        &["(*o)"],
    ),
];

/// The properties of that figure 1, as entailments. All hold, with reason 0.
pub const FIGURE_1: &[Worked] = &[
    unshown(
        "functional",
        "01 01 04 00 | 10 00 01 02 | 10 00 01 03 | 22 02 03 | 00",
        true,
        0,
    ),
    unshown(
        "commutative",
        "01 01 03 00 | 10 00 01 02 | 20 01 00 02 | 00",
        true,
        0,
    ),
    unshown(
        "associative",
        "01 01 05 01 | 10 00 03 04 | 10 01 02 03 | 20 00 01 05 | 20 05 02 04 | 00",
        true,
        0,
    ),
    unshown(
        "cancellative",
        "01 01 04 00 | 10 00 01 02 | 10 03 01 02 | 22 00 03 | 00",
        true,
        0,
    ),
    unshown("a unit for each", "01 01 01 01 | 20 00 01 00 | 00", true, 0),
    unshown(
        "the empty share is a unit",
        "01 01 01 00 | E | 20 00 20 00 | 00",
        true,
        0,
    ),
    unshown(
        "disjointness",
        "01 01 02 00 | 10 00 00 01 | 22 00 01 | 00",
        true,
        0,
    ),
    unshown(
        "cross split",
        "01 01 05 04 | 10 00 01 04 | 10 02 03 04 | 20 05 06 00 | 20 07 08 01 | 20 05 07 02 \
         | 20 06 08 03 | 00",
        true,
        0,
    ),
    unshown(
        "infinite splitability",
        "01 01 01 02 | E | 13 00 20 | 23 01 20 | 23 02 20 | 20 01 02 00 | 00",
        true,
        0,
    ),
];

/// Questions that a wrong reading gets wrong. The name of one for a mistake of SPEC 13 starts with its number; those for 13.7 and 13.8 stand in `NAMED`.
pub const MISTAKES: &[Worked] = &[
    yes(
        "13.1: a disequation needs more than height h",
        "01 00 02 00 | E F | 10 00 01 21 | 13 00 20 | 13 01 20 | 00",
        1,
        &["(*o)", "(o*)"],
    ),
    yes(
        "13.2: no leaf meets both disequations",
        "01 00 01 00 | E F | 13 00 20 | 13 00 21 | 00",
        1,
        &["(*o)"],
    ),
    yes(
        "13.3: a negated join holds where the join is undefined",
        "01 00 02 00 | F | 12 00 20 | 12 01 20 | 11 00 01 00 | 00",
        0,
        &["*", "*"],
    ),
    unshown(
        "13.4: one leaf is enough for a disequation of the second",
        "01 01 01 00 | L E F | 12 00 20 | 23 00 21 | 23 00 22 | 00",
        true,
        0,
    ),
    unshown(
        "13.5: own variables may be taller",
        "01 01 01 03 | E F | 12 00 21 | 20 01 02 03 | 12 00 00 | 23 01 20 | 23 02 20 | 23 03 00 | 00",
        true,
        0,
    ),
    // Only E is named: h = 0, d = 1, W = 0.
    yes(
        "13.6: a constant that no clause names does not count for the height",
        "01 00 01 00 | 03 01 00 00 00 | E | 13 00 21 | 00",
        0,
        &["*"],
    ),
    not_entailed(
        "the lowest disequation that cannot be had, not the first",
        "01 01 02 00 | E F | 12 00 21 | 23 00 20 | 23 01 20 | 23 01 21 | 00",
        0,
        (3, 1),
        &["*", "o"],
    ),
    not_entailed(
        "only the last of 31 disequations cannot be had",
        "01 01 01 00 | E F | 12 00 21 \
         | 23 00 20 | 23 00 20 | 23 00 20 | 23 00 20 | 23 00 20 | 23 00 20 \
         | 23 00 20 | 23 00 20 | 23 00 20 | 23 00 20 | 23 00 20 | 23 00 20 \
         | 23 00 20 | 23 00 20 | 23 00 20 | 23 00 20 | 23 00 20 | 23 00 20 \
         | 23 00 20 | 23 00 20 | 23 00 20 | 23 00 20 | 23 00 20 | 23 00 20 \
         | 23 00 20 | 23 00 20 | 23 00 20 | 23 00 20 | 23 00 20 | 23 00 20 \
         | 23 00 21 | 00",
        0,
        (3, 30),
        &["*"],
    ),
    unshown(
        "an own variable may be named by no clause",
        "01 01 00 0C | 00",
        true,
        0,
    ),
    not_entailed(
        "an own variable never differs from itself",
        "01 01 00 01 | F | 20 20 00 20 | 23 00 00 | 00",
        0,
        (3, 0),
        &[],
    ),
];

/// Questions that another reading of the fixed solution's words would show otherwise. In the comments a choice is written as its
/// values, that of variable 0 first: o is empty, * is full.
pub const FIXED: &[Worked] = &[
    // h = 0 and W = 0: one leaf and one sub-leaf, which holds nothing. The choices are o** and *oo. They differ at v0 first.
    yes(
        "the least choice: v0 join v1 is full, v0 join v2 is full",
        "01 00 03 00 | F | 10 00 01 20 | 10 00 02 20 | 00",
        0,
        &["o", "*", "*"],
    ),
    // h = 0, d = 2, W = 1. The choices are o* and *o. Sub-leaf 0 holds "v1 is not empty" and carries o*, sub-leaf 1 holds "v0 is
    // not empty" and carries *o. In 13.1 the two stand the other way round.
    yes(
        "two disequations at one leaf, in question order",
        "01 00 02 00 | E F | 10 00 01 21 | 13 01 20 | 13 00 20 | 00",
        1,
        &["(o*)", "(*o)"],
    ),
    // h = 1, d = 1, W = 1. R is o at leaf 0, where only * differs from it, and * at leaf 1, where o would do. It goes to leaf 0 all
    // the same; leaf 1 holds nothing and carries o.
    yes(
        "the leftmost leaf, though one to the right has a lesser choice",
        "01 00 01 00 | R | 13 00 20 | 00",
        1,
        &["(*o)"],
    ),
    // h = 1, d = 2, W = 2. At leaf 0 R is o and the only choice is oo, which meets neither disequation. At leaf 1 the choices are o*
    // and *o; there sub-leaf 0 holds "v1 is not empty" and carries o*, sub-leaf 1 holds "v0 is not empty" and carries *o.
    yes(
        "disequations whose leftmost leaf is leaf 1",
        "01 00 02 00 | E R | 10 00 01 21 | 13 01 20 | 13 00 20 | 00",
        2,
        &["(o(o*))", "(o(*o))"],
    ),
    // h = 0, d = 3, W = 2. The choices are o* and *o. Sub-leaves 0 to 2 hold "v1 is not full" and carry *o. Sub-leaf 3 holds nothing
    // and carries o*.
    yes(
        "an idle sub-leaf carries the least choice of all",
        "01 00 02 00 | F | 10 00 01 20 | 13 01 20 | 13 01 20 | 13 01 20 | 00",
        2,
        &["(*(*o))", "(o(o*))"],
    ),
    // h = 0, d = 2, W = 0 + c(3) = 2. Sub-leaf 0 carries o, which is not full, sub-leaves 1 and 2 hold "v0 is not empty" and carry *.
    // Sub-leaf 3 holds nothing and carries o.
    not_entailed(
        "reason 2: the choice that leaves the second unmet stands before the disequations",
        "01 01 01 00 | E F | 13 00 20 | 13 00 20 | 22 00 21 | 00",
        2,
        (2, 0),
        &["((o*)(*o))"],
    ),
    // v1 join v2 is R; v1 is not empty; entails: v0 join R is own v3. h = 1, d = 1, W = 1 + c(2) = 2. At leaf 0 the choices are ooo and
    // *oo, own v3 can be v0, and nothing is held: ooo twice. At leaf 1 the choices are oo*, o*o, *o* and **o; with v0 full the join is
    // undefined. So sub-leaf 0 carries *o*, the lesser of the last two, and sub-leaf 1 holds "v1 is not empty" and carries o*o.
    not_entailed(
        "reason 2: the same at leaf 1",
        "01 01 03 01 | E R | 10 01 02 21 | 13 01 20 | 20 00 21 03 | 00",
        2,
        (2, 0),
        &["(o(*o))", "(o(o*))", "(o(*o))"],
    ),
    // v0 is not empty; entails: v0 join R is own v1. h = 1, d = 1, W = 2. At leaf 0 own v1 can be v0; the disequation goes there: *, then o,
    // which holds nothing. At leaf 1 the join is undefined if v0 is full: *, then o, which holds nothing.
    not_entailed(
        "reason 2: a disequation at another leaf",
        "01 01 01 01 | E R | 13 00 20 | 20 00 21 01 | 00",
        2,
        (2, 0),
        &["((*o)(*o))"],
    ),
    // L is named by no clause: h = 0, d = 0, W = 0 + c(1) = 0. At the only leaf * is not empty.
    not_entailed(
        "reason 2: a constant that no clause names parts no leaf",
        "01 01 01 00 | E L | 22 00 20 | 00",
        0,
        (2, 0),
        &["*"],
    ),
    // h = 0, d = 0, W = 0. The choices are o* and *o. With the first v1 is not empty; only the second counts.
    not_entailed(
        "reason 3: the least choice can have the disequation, so a greater one is shown",
        "01 01 02 00 | F E | 10 00 01 20 | 23 01 21 | 00",
        0,
        (3, 0),
        &["*", "o"],
    ),
    // v0 join v1 is full; not (v0 join v2 is L); entails: own v3 join own v4 is v1, v0 is not v1, v3 is not empty. v0 and v1 always differ; v3
    // must be empty where v1 is. So number 1 is named, and only *oo and *o* count. h = 1, d = 1, W = 1 + c(2) = 2. At leaf 0 L is full and
    // * join o is full too: sub-leaf 0 carries *o*, where the join is undefined. (o*o, which does not count, would be less.) The others hold
    // nothing and carry *oo.
    not_entailed(
        "reason 3: in every leaf, a disequation's too, only choices that count",
        "01 01 03 02 | F E L | 10 00 01 20 | 11 00 02 22 | 20 03 04 01 | 23 00 01 | 23 03 21 | 00",
        2,
        (3, 1),
        &["*", "o", "((*o)o)"],
    ),
    // h = 1, d = 1, W = 2. v0 is not R at no leaf, so o counts at leaf 0 and * at leaf 1. "v0 is not empty" goes to leaf 1.
    not_entailed(
        "reason 3: a disequation goes where a choice that counts meets it",
        "01 01 01 00 | E R | 13 00 20 | 23 00 21 | 00",
        2,
        (3, 0),
        &["(o*)"],
    ),
];

/// Permission policies: "may write" is full, "may read" is not empty, and what may be held together has a join. Those of SPEC 12
/// have its number.
pub const POLICIES: &[Worked] = &[
    unshown(
        "12.17: a writer and a reader held together",
        "01 00 02 00 | 30 00 | 31 01 | 32 00 01 | 00",
        false,
        0,
    ),
    unshown(
        "a writer that is the reader, held together with itself",
        "01 00 01 00 | 30 00 | 31 00 | 32 00 00 | 00",
        false,
        0,
    ),
    unshown(
        "a writer and a reader held together entail anything",
        "01 01 02 00 | 30 00 | 31 01 | 32 00 01 | 38 01 | 00",
        true,
        1,
    ),
    // h = 0, d = 2, W = 1. The choices are oo, o* and *o. Sub-leaf 0 holds "v0 is not empty" and carries *o, sub-leaf 1 holds "v1 is
    // not empty" and carries o*.
    yes(
        "12.18: two readers held together",
        TWO_READERS,
        1,
        &["(*o)", "(o*)"],
    ),
    // h = 0, d = 0, W = 0. The least choice is oo: that two shares have a join does not say which.
    yes(
        "held together, and both empty",
        "01 00 02 00 | 32 00 01 | 00",
        0,
        &["o", "o"],
    ),
    unshown(
        "a writer held together with what is not empty at one leaf",
        "01 00 01 00 | R | 30 00 | 32 00 20 | 00",
        false,
        0,
    ),
    // h = 1, d = 0, W = 1. At leaf 0 R is o and the least choice is o; at leaf 1 only o can be held together with *.
    yes(
        "held together with R: the join need not be full",
        "01 00 01 00 | R | 32 00 20 | 00",
        1,
        &["o"],
    ),
    yes(
        "L and R may be held together",
        "01 00 00 00 | L R | 32 20 21 | 00",
        1,
        &[],
    ),
    unshown(
        "L may not be held together with itself",
        "01 00 00 00 | L | 32 20 20 | 00",
        false,
        0,
    ),
    unshown(
        "L may not write: full is asked at every leaf",
        "01 00 01 00 | L | 12 00 20 | 30 00 | 00",
        false,
        0,
    ),
    // h = 1, d = 1, W = 1. Only leaf 1 meets the disequation; v0 is R.
    yes(
        "R may read: not empty is asked at one leaf",
        "01 00 01 00 | R | 12 00 20 | 31 00 | 00",
        1,
        &["(o*)"],
    ),
    unshown(
        "the empty share may not read",
        "01 00 00 00 | E | 31 20 | 00",
        false,
        0,
    ),
    // h = 0, d = 3, W = 2. Sub-leaves 0 to 2 carry *, sub-leaf 3 holds nothing and carries o.
    yes(
        "may read counts as a disequation as often as it stands",
        "01 00 01 00 | E | 31 00 | 13 00 20 | 31 00 | 00",
        2,
        &["(*(*o))"],
    ),
    unshown(
        "v0 held together with itself entails v0 is empty",
        "01 01 01 00 | E | 32 00 00 | 22 00 20 | 00",
        true,
        0,
    ),
    unshown(
        "v0 is empty entails v0 may be held together with itself and v1",
        "01 01 02 00 | E | 12 00 20 | 3A 00 00 | 3A 01 00 | 00",
        true,
        0,
    ),
    // h = 0, d = 1, W = 0 + c(2) = 1. Sub-leaf 0 carries o, which is not full, sub-leaf 1 holds "v0 is not empty" and carries *.
    not_entailed(
        "12.19: v0 may read entails v0 may write",
        "01 01 01 00 | 31 00 | 38 00 | 00",
        1,
        (2, 0),
        &["(o*)"],
    ),
    unshown(
        "12.20: v0 may write entails v0 may read",
        "01 01 01 00 | 30 00 | 39 00 | 00",
        true,
        0,
    ),
    // h = 0, d = 0, W = 0 + c(1) = 0. Only o lacks the disequation.
    not_entailed(
        "nothing entails v0 may read",
        "01 01 01 00 | 39 00 | 00",
        0,
        (3, 0),
        &["o"],
    ),
    // h = 0, d = 1, W = 1. Sub-leaf 0 carries *, the only choice that is not held together with itself; sub-leaf 1 holds "v0 is not
    // empty" and carries * too.
    not_entailed(
        "v0 may read entails v0 held together with itself",
        "01 01 01 00 | 31 00 | 3A 00 00 | 00",
        1,
        (2, 0),
        &["*"],
    ),
    // h = 0, d = 0, W = 0. v0 is full, so number 0 is had; number 1 is lacking where v1 is empty.
    not_entailed(
        "the disequation number counts negated equalities and may read together",
        "01 01 02 00 | E | 30 00 | 23 00 20 | 39 01 | 00",
        0,
        (3, 1),
        &["*", "o"],
    ),
    unshown(
        "nothing entails that own v0 may write",
        "01 01 00 01 | 38 00 | 00",
        true,
        0,
    ),
    // h = 0, d = 0, W = 0. Held together with the full v0, own v1 is empty.
    not_entailed(
        "12.21: v0 may write entails own v1 may read, held together with v0",
        "01 01 01 01 | 30 00 | 39 01 | 3A 00 01 | 00",
        0,
        (3, 0),
        &["*"],
    ),
    unshown(
        "v0 is not full entails own v1 may read, held together with v0",
        "01 01 01 01 | F | 13 00 20 | 39 01 | 3A 00 01 | 00",
        true,
        0,
    ),
];

/// One more for the words of the fixed solution, which before.txt does not have.
pub const LEFTMOST: &[Worked] = &[
    // L is L says nothing, but names it: h = 1, d = 0, W = 1. At both leaves * is not empty. The leftmost carries it; leaf 1 holds nothing and carries o.
    not_entailed(
        "reason 2: the leftmost of two leaves",
        "01 01 01 00 | E L | 12 21 21 | 22 00 20 | 00",
        1,
        (2, 0),
        &["(*o)"],
    ),
];

/// Which constants count for the height: those that some clause names, of whichever system and sort. The terms 20 to 3F are constants 0 to 31. T, of height 5, is
/// `(((((*o)o)o)o)o)`, U the rest of the full share; Q, of height 2, is `((*o)o)`.
pub const NAMED: &[Worked] = &[
    // 20 is L, 21 is F. h = 1, d = 0, W = 1. v0 is what L lacks.
    yes(
        "12.22: v0 join L is full, T is named by no clause",
        "01 00 01 00 | L F T | 10 00 20 21 | 00",
        1,
        &["(o*)"],
    ),
    // h = 0, d = 1, W = 0.
    yes(
        "12.23: v0 may read, T is named by no clause",
        "01 00 01 00 | T | 31 00 | 00",
        0,
        &["*"],
    ),
    // h = 1, d = 0, W = 1 + c(1) = 1. v0 is full, which is not L.
    not_entailed(
        "12.24: v0 may write entails v0 is L, which the second system alone names",
        "01 01 01 00 | L | 30 00 | 22 00 20 | 00",
        1,
        (2, 0),
        &["*"],
    ),
    // h = 1, d = 1, W = 1. Leaf 0, where L is full, holds the disequation and carries o; leaf 1 carries o.
    yes(
        "12.25: v0 is not L, which a disequation alone names",
        "01 00 01 00 | L | 13 00 20 | 00",
        1,
        &["o"],
    ),
    // h = 1, d = 0, W = 1 + c(1) = 1. Only L lacks the disequation.
    not_entailed(
        "12.26: no clause entails v0 is not L",
        "01 01 01 00 | L | 23 00 20 | 00",
        1,
        (3, 0),
        &["(*o)"],
    ),
    // 3E is L, 3F is F. h = 1, d = 0, W = 1. v0 is what L lacks.
    yes(
        "32 constants, of which two are named, both low",
        "01 00 01 00 | 30xT L F | 10 00 3E 3F | 00",
        1,
        &["(o*)"],
    ),
    yes(
        "32 constants, of which one is named, the first, and it alone is tall",
        "01 00 01 00 | T 31xE | 12 00 20 | 00",
        5,
        &["(((((*o)o)o)o)o)"],
    ),
    yes(
        "32 constants, of which one is named, the last, and it alone is tall",
        "01 00 01 00 | 31xE T | 12 3F 00 | 00",
        5,
        &["(((((*o)o)o)o)o)"],
    ),
    // h = 0, d = 1, W = 0.
    yes(
        "32 constants, of which none is named",
        "01 00 01 00 | 32xT | 31 00 | 00",
        0,
        &["*"],
    ),
    // v0 join v1 is L; v0 is not empty; v1 is not empty; not (v0 join v1 is Q). 3D is E, 3E is L, 3F is Q, which the last alone names. h = 2, d = 3,
    // W = 2 + c(3) = 4. At leaves 0 and 1 the choices are o* and *o, at leaves 2 and 3 there is oo. Leaf 0 takes the first two: its sub-leaves carry *o, o*, then
    // o* twice. There the join is Q, so leaf 1 takes the third disequation; all its sub-leaves carry o*.
    yes(
        "32 constants, of which three are named, the tallest of these in a disequation",
        "01 00 02 00 | 29xT E L Q | 10 00 01 3E | 13 00 3D | 13 01 3D | 11 00 01 3F | 00",
        4,
        &["((((*o)o)o)o)", "((((o*)*)*)o)"],
    ),
    // v0 is variable 0, T constant 0. h = 0, d = 0, W = 0.
    yes(
        "variable 0 is named, constant 0 is not",
        "01 00 01 00 | T | 12 00 00 | 00",
        0,
        &["o"],
    ),
    // Constant 1 is the highest that is named. h = 0, W = 0.
    yes(
        "one below another that is named does not count",
        "01 00 01 00 | T F | 30 00 | 12 00 21 | 00",
        0,
        &["*"],
    ),
    // h = 5, d = 1, W = 5. U is empty at leaf 0 alone, where * differs from it. The other leaves hold nothing and carry o.
    yes(
        "13.8: a tall one that only a disequation names",
        "01 00 01 00 | U | 13 00 20 | 00",
        5,
        &["(((((*o)o)o)o)o)"],
    ),
    // The same with trees that route A can try: h = 2, d = 1, W = 2. The constant is empty at leaf 0 of four alone.
    yes(
        "one of height 2 that only a disequation names",
        "01 00 01 00 | T 03 00 FF FF FF | 13 00 21 | 00",
        2,
        &["((*o)o)"],
    ),
    // h = 5, d = 1, W = 5.
    yes(
        "a tall one that only a share that may read names",
        "01 00 00 00 | E T | 31 21 | 12 20 20 | 00",
        5,
        &[],
    ),
    // h = 5, d = 0, W = 5. The least choice is o everywhere.
    yes(
        "a tall one that is only held together with v0",
        "01 00 01 00 | E T | 32 00 21 | 12 00 20 | 00",
        5,
        &["o"],
    ),
    // v0 is U: h = 5, d = 0, W = 5.
    yes(
        "a tall one that is the second of a join's terms",
        "01 00 01 00 | T F | 10 00 20 21 | 00",
        5,
        &["(((((o*)*)*)*)*)"],
    ),
    // h = 5, d = 0, W = 5 + c(1) = 5. At leaf 0, where U is empty, * is not U. The other leaves hold nothing and carry o.
    not_entailed(
        "13.7: a tall one that only the second system names",
        "01 01 01 00 | U | 22 00 20 | 00",
        5,
        (2, 0),
        &["(((((*o)o)o)o)o)"],
    ),
    // The same with trees that route A can try: h = 2, d = 0, W = 2.
    not_entailed(
        "one of height 2 that only the second system names",
        "01 01 01 00 | T 03 00 FF FF FF | 22 00 21 | 00",
        2,
        (2, 0),
        &["((*o)o)"],
    ),
    // 20 is L, 21 is T. h = 5, d = 1, W = 5 + c(2) = 6. v0 is not L at leaf 0, with o; T is full there, so that the same o is unmet, in the first sub-leaf.
    not_entailed(
        "a low one that the first system names, and a tall one that the second does",
        "01 01 01 00 | L T | 13 00 20 | 22 00 21 | 00",
        6,
        (2, 0),
        &["o"],
    ),
    // h = 5, d = 0, W = 5. Only what is T at each leaf lacks the disequation.
    not_entailed(
        "a tall one that only a disequation of the second names",
        "01 01 01 00 | T | 23 00 20 | 00",
        5,
        (3, 0),
        &["(((((*o)o)o)o)o)"],
    ),
    not_entailed(
        "one of height 2 that only a disequation of the second names",
        "01 01 01 00 | T Q | 23 00 21 | 00",
        2,
        (3, 0),
        &["((*o)o)"],
    ),
    // h = 5, d = 0, W = 5. At leaf 0 T is full, so that * is unmet.
    not_entailed(
        "a tall one that the second system alone has held together with v0",
        "01 01 01 00 | T | 3A 00 20 | 00",
        5,
        (2, 0),
        &["(((((*o)o)o)o)o)"],
    ),
    // Own v1 join Q is v0. h = 2, d = 0, W = 2. At leaf 0 Q is full, so that o is unmet.
    not_entailed(
        "T is not named, Q is, beside an own variable",
        "01 01 01 01 | T Q | 20 01 21 00 | 00",
        2,
        (2, 0),
        &["o"],
    ),
    // h = 1, d = 0, W = 1. At leaf 0 R is empty, so that * is unmet; leaf 1 holds nothing and carries o.
    not_entailed(
        "T is not named, R is",
        "01 01 01 00 | T R | 22 00 21 | 00",
        1,
        (2, 0),
        &["(*o)"],
    ),
    unshown(
        "T is not named, and the entailment holds: no height is given",
        "01 01 01 00 | T L | 12 00 21 | 39 00 | 00",
        true,
        0,
    ),
    // The byte behind a clause with one term or two is the next command, and no term of the clause. The commands 20 to 23, 30 to 32 and 38 to 3A are terms too:
    // constants 0 to 3, 16 to 18 and 24 to 26.
    // 20 is E, 30 to 32 are T. h = 0, d = 1, W = 0.
    yes(
        "31 behind an equality is no third term of it",
        "01 00 02 00 | 16xE 3xT | 12 00 20 | 31 01 | 00",
        0,
        &["o", "*"],
    ),
    // h = 0, d = 1, W = 0.
    yes(
        "30 behind a negated equality is no third term of it",
        "01 00 02 00 | 16xE 3xT | 13 00 20 | 30 01 | 00",
        0,
        &["*", "*"],
    ),
    // h = 0, d = 2, W = 1. Held together with the full v1, v0 is empty. Both sub-leaves hold "v2 is not empty" and carry o**.
    yes(
        "30 behind a pair held together, 32 and 31 behind what may read and write, are no terms of these",
        "01 00 03 00 | 16xE 3xT | 31 02 | 32 00 01 | 30 01 | 31 02 | 00",
        1,
        &["o", "*", "*"],
    ),
    // 24 is E, 20 to 23 are T. h = 0, d = 0, W = 0 + c(1) = 0. Only o lacks "v0 is not empty".
    not_entailed(
        "23 behind an equality is no third term of it",
        "01 01 01 00 | 4xT E | 12 00 24 | 23 00 24 | 00",
        0,
        (3, 0),
        &["o"],
    ),
    // The same. v0 is empty, so v1, which is not held to anything, can be o, which is not full: unmet.
    not_entailed(
        "20, 22 and 38 behind equalities are no third terms of them",
        "01 01 02 00 | 4xT 20xE 3xT | 12 00 24 | 20 00 24 00 | 12 00 24 | 22 00 24 | 38 01 | 00",
        0,
        (2, 0),
        &["o", "o"],
    ),
    // h = 0, d = 0, W = 0. Held together with the full v0, own v1 is empty.
    not_entailed(
        "3A and 39 behind one term and behind two are no terms of these",
        "01 01 01 01 | 24xE 3xT | 30 00 | 3A 00 01 | 39 01 | 00",
        0,
        (3, 0),
        &["*"],
    ),
];

/// The bytes of a question written as above.
pub fn bytes(text: &str) -> Vec<u8> {
    let mut bytes = Vec::new();
    for word in text.split_whitespace() {
        let (times, word) = word.split_once('x').unwrap_or(("1", word));
        let times = times.parse().expect("how often it stands");
        bytes.extend(bytes_of_word(word).repeat(times));
    }
    bytes
}

fn bytes_of_word(word: &str) -> Vec<u8> {
    let leaves: u32 = match word {
        "|" => return Vec::new(),
        "E" => 0x0000_0000,
        "F" => 0xFFFF_FFFF,
        "L" => 0x0000_FFFF,
        "R" => 0xFFFF_0000,
        "Q" => 0x0000_00FF,
        "T" => 0x0000_0001,
        "U" => 0xFFFF_FFFE,
        pair => return vec![u8::from_str_radix(pair, 16).expect("two hexadecimal digits")],
    };
    [vec![0x03], leaves.to_le_bytes().to_vec()].concat()
}

pub fn all() -> impl Iterator<Item = &'static Worked> {
    older().chain(LEFTMOST).chain(POLICIES).chain(NAMED)
}

/// Those of before.txt.
pub fn older() -> impl Iterator<Item = &'static Worked> {
    WORKED.iter().chain(FIGURE_1).chain(MISTAKES).chain(FIXED)
}
