//! Wrong joins and heights of constants: one word of docs/SPEC.md, 2.2, 2.4, 6.2 and 6.3, is misread at a time. On many numbers each gives
//! another result, and the comparison with the library notices.

use crate::calls::{height_due, UNDEFINED};
use crate::constants::{height, join, some_number, some_pair, Height, Join};
use crate::report::{Family, Report};
use crate::slips::enough;
use crate::tree::{tree_of_number, Tree};
use crate::wrong_readers::left_height;

pub const FAMILIES: &[Family] = &[("slips in join and height", slips_noticed)];

const JOINS: [(&str, Join); 15] = [
    ("undefined where either has a full leaf", |a, b| {
        sum_unless(a | b, a, b)
    }),
    ("undefined where a leaf is empty in both", |a, b| {
        sum_unless(!(a | b), a, b)
    }),
    ("leaf 0 is not compared", |a, b| {
        sum_unless(a & b & !1, a, b)
    }),
    ("leaf 31 is not compared", |a, b| {
        sum_unless(a & b & !(1 << 31), a, b)
    }),
    ("the low 16 leaves alone are compared", |a, b| {
        sum_unless(a & b & 0x0000_FFFF, a, b)
    }),
    ("the high 16 leaves alone are compared", |a, b| {
        sum_unless(a & b & 0xFFFF_0000, a, b)
    }),
    ("undefined where the sum needs 33 bits", |a, b| {
        a.checked_add(b).map_or(UNDEFINED, u64::from)
    }),
    ("never undefined: the sum", |a, b| sum_unless(0, a, b)),
    ("never undefined: the or", |a, b| u64::from(a | b)),
    ("never undefined: the exclusive or", |a, b| u64::from(a ^ b)),
    ("a less b", |a, b| {
        unless(a & b, u64::from(a.wrapping_sub(b)))
    }),
    ("b less a", |a, b| {
        unless(a & b, u64::from(b.wrapping_sub(a)))
    }),
    ("2^32 - 1 for undefined", |a, b| told(a, b, UNDEFINED - 1)),
    ("0 for undefined", |a, b| told(a, b, 0)),
    ("undefined beside leaves", |a, b| {
        told(a, b, UNDEFINED + u64::from(a | b))
    }),
];

/// The join, with "undefined" told by this number.
fn told(a: u32, b: u32, undefined: u64) -> u64 {
    match a & b {
        0 => u64::from(a | b),
        _ => undefined,
    }
}

/// Undefined unless this is 0.
fn unless(shared: u32, joined: u64) -> u64 {
    match shared {
        0 => joined,
        _ => UNDEFINED,
    }
}

fn sum_unless(shared: u32, a: u32, b: u32) -> u64 {
    unless(shared, u64::from(a) + u64::from(b))
}

const HEIGHTS: [(&str, Height); 12] = [
    ("never 0", |a| height_due(a).max(1)),
    ("one less", |a| height_due(a).saturating_sub(1)),
    ("one more", |a| height_due(a) + 1),
    ("as many as neighbours differ", |a| {
        unlike_neighbours(a).count_ones().min(5)
    }),
    (
        "neighbours of two blocks are compared too",
        |a| match unlike_neighbours(a) {
            0 => 0,
            _ => 5,
        },
    ),
    (
        "a leaf is compared with one of the pair beside it",
        |a| match unlike_neighbours(a) & 0xAAAA_AAAA {
            0 => height_due(a).min(4),
            _ => 5,
        },
    ),
    ("the left half alone", |a| left_height(&tree_of_number(a))),
    ("the lower half", |a| by_lower_half(&tree_of_number(a))),
    ("equal halves are folded", |a| {
        with_equal_halves_folded(&tree_of_number(a))
    }),
    ("the low 16 leaves alone", |a| {
        height_due(a << 16 | a & 0xFFFF)
    }),
    ("leaf 0 is taken for leaf 1", |a| {
        height_due(a & !1 | a >> 1 & 1)
    }),
    ("leaf 31 is taken for leaf 30", |a| {
        height_due(a & !(1 << 31) | a << 1 & 1 << 31)
    }),
];

/// Bit i is set where leaves i and i + 1 differ.
fn unlike_neighbours(a: u32) -> u32 {
    (a ^ a >> 1) & 0x7FFF_FFFF
}

fn by_lower_half(tree: &Tree) -> u32 {
    match tree {
        Tree::Pair(left, right) => 1 + by_lower_half(left).min(by_lower_half(right)),
        _ => 0,
    }
}

fn with_equal_halves_folded(tree: &Tree) -> u32 {
    let height = with_equal_halves_folded;
    match tree {
        Tree::Pair(left, right) if left == right => height(left),
        Tree::Pair(left, right) => 1 + height(left).max(height(right)),
        _ => 0,
    }
}

/// Counts the slips that give another result than the one that is due.
fn note<T: PartialEq, const COUNT: usize>(
    changed: &mut [usize; COUNT],
    due: T,
    by_slips: [T; COUNT],
) {
    for (count, wrong) in changed.iter_mut().zip(by_slips) {
        *count += usize::from(wrong != due);
    }
}

/// The pairs and numbers are of the sorts that "join and height of constants" has. Where the library gives what is due, it is unlike
/// each slip that does not.
fn slips_noticed(report: &mut Report) {
    let mut random = report.random();
    let (mut joins, mut heights) = ([0; JOINS.len()], [0; HEIGHTS.len()]);
    for round in 0..report.rounds(10_000) {
        let (a, b) = some_pair(&mut random, round);
        let due = join(report, a, b);
        note(&mut joins, due, JOINS.map(|(_, slip)| slip(a, b)));
        let a = some_number(&mut random, round);
        let due = height(report, a);
        note(&mut heights, due, HEIGHTS.map(|(_, slip)| slip(a)));
    }
    let names = JOINS.map(|(name, _)| name);
    enough(report, "joins", names, joins, 30);
    let names = HEIGHTS.map(|(name, _)| name);
    enough(report, "heights", names, heights, 30);
}
