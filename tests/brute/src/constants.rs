//! Families of the calls that join and measure constants. What is due comes from the plain trees, which are unfolded, joined leaf by leaf
//! and folded; that `halves` gives the same is checked apart.

use crate::calls::{height_due, join_due, UNDEFINED};
use crate::halves::{height_by_blocks, join_by_halves};
use crate::library;
use crate::make::{random_leaves, unfolded_bits};
use crate::random::Random;
use crate::report::{Family, Report};
use crate::seen::enough;
use crate::tree::CONSTANT_HEIGHT;

pub type Join = fn(u32, u32) -> u64;
pub type Height = fn(u32) -> u32;

pub const FAMILIES: &[Family] = &[
    ("joins of all trees no taller than 3", all_low_joins),
    ("heights of all trees no taller than 4", all_low_heights),
    ("join and height of constants", constants),
    ("laws of the join", laws),
];

/// One case of joining. Gives what is due.
pub fn join(report: &mut Report, a: u32, b: u32) -> u64 {
    let due = join_due(a, b);
    report.same_apart("by halves", (a, b, join_by_halves(a, b)), (a, b, due));
    report.same("join", (a, b, library::join(a, b)), (a, b, due));
    due
}

/// One case of measuring. Gives what is due.
pub fn height(report: &mut Report, a: u32) -> u32 {
    let due = height_due(a);
    report.same_apart("by blocks", (a, height_by_blocks(a)), (a, due));
    report.same("height", (a, library::height(a)), (a, due));
    due
}

/// All trees no taller than this, as numbers of 32 leaves.
fn all_low(height: u32) -> impl Iterator<Item = u32> {
    (0..1 << (1 << height)).map(move |bits| unfolded_bits(bits, height))
}

fn all_low_joins(report: &mut Report) {
    let mut defined = 0;
    for a in all_low(3) {
        for b in all_low(3) {
            defined += usize::from(join(report, a, b) != UNDEFINED);
        }
    }
    // At each of 8 leaves, three of the four ways in which two trees are full or empty there can be joined.
    report.same_apart("joins that are defined", defined, 3_usize.pow(8));
}

fn all_low_heights(report: &mut Report) {
    let mut counts = [0; 5];
    for a in all_low(4) {
        counts[height(report, a) as usize] += 1;
    }
    // There are 2, 4, 16, 256 and 65,536 trees no taller than 0 to 4.
    let due = [2, 4 - 2, 16 - 4, 256 - 16, 65_536 - 256];
    report.same_apart("trees of each height", counts, due);
}

fn uniform(random: &mut Random) -> u32 {
    random.number() as u32
}

/// A pair of which the round says the sort: any two numbers or two that share no leaf, of trees of any height or uniformly random; two with
/// all leaves between them; or, with each leaf in turn, two that share that leaf alone.
pub fn some_pair(random: &mut Random, round: usize) -> (u32, u32) {
    const SORTS: usize = 7;
    let (low, any) = (random_leaves(random, CONSTANT_HEIGHT), uniform(random));
    let shared = 1 << (round / SORTS % 32);
    match round % SORTS {
        0 => (low, random_leaves(random, CONSTANT_HEIGHT)),
        1 => (low, random_leaves(random, CONSTANT_HEIGHT) & !low),
        2 => (any, uniform(random)),
        3 => (any, uniform(random) & !any),
        4 => (low, !low),
        5 => (low | shared, !low | shared),
        _ => (any | shared, uniform(random) & !any | shared),
    }
}

/// A number of which the round says the sort: of a tree of any height, uniformly random, or, with each leaf in turn, of a tree lower than 5 of
/// which that leaf alone was changed.
pub fn some_number(random: &mut Random, round: usize) -> u32 {
    const SORTS: usize = 3;
    match round % SORTS {
        0 => random_leaves(random, CONSTANT_HEIGHT),
        1 => uniform(random),
        _ => random_leaves(random, CONSTANT_HEIGHT - 1) ^ 1 << (round / SORTS % 32),
    }
}

fn constants(report: &mut Report) {
    let mut random = report.random();
    let (mut defined, mut sharing_alone) = (0, [0; 32]);
    let mut heights = [0; CONSTANT_HEIGHT as usize + 1];
    for round in 0..report.rounds(30_000) {
        let (a, b) = some_pair(&mut random, round);
        defined += usize::from(join(report, a, b) != UNDEFINED);
        let shared = a & b;
        if shared.count_ones() == 1 {
            sharing_alone[shared.trailing_zeros() as usize] += 1;
        }
        let number = some_number(&mut random, round);
        heights[height(report, number) as usize] += 1;
    }
    one_leaf(report);
    enough(report, "joins that are defined", &[defined], 200);
    enough(report, "each leaf, shared alone", &sharing_alone, 200);
    enough(report, "each height", &heights, 200);
}

/// What is known of each leaf without a tree.
fn one_leaf(report: &mut Report) {
    for bit in 0..32 {
        let a = 1 << bit;
        report.same("a join of two full leaves", library::join(a, a), UNDEFINED);
        report.same("height of one leaf", library::height(a), 5);
        report.same("join with empty", library::join(a, 0), u64::from(a));
        report.same("join to full", library::join(a, !a), 0xFFFF_FFFF);
    }
}

/// Joins what joins gave, of which one may be undefined.
fn join_given(join: Join, a: u64, b: u64) -> u64 {
    match (u32::try_from(a), u32::try_from(b)) {
        (Ok(a), Ok(b)) => join(a, b),
        _ => UNDEFINED,
    }
}

/// Both sides of each law must be what is due.
fn laws(report: &mut Report) {
    let mut random = report.random();
    let mut defined = 0;
    for round in 0..report.rounds(10_000) {
        let (a, b) = some_pair(&mut random, round);
        let either_order = [library::join(a, b), library::join(b, a)];
        report.same("a join b, b join a", either_order, [join_due(a, b); 2]);
        let with_empty = [library::join(a, 0), library::join(0, a)];
        report.same("a join empty, empty join a", with_empty, [u64::from(a); 2]);
        let apart = if round % 2 == 0 { !(a | b) } else { u32::MAX };
        let c = some_number(&mut random, round) & apart;
        let [a, b, c] = [a, b, c].map(u64::from);
        let left = |join| join_given(join, join_given(join, a, b), c);
        let right = |join| join_given(join, a, join_given(join, b, c));
        let (due, given) = (left(join_due), [left(library::join), right(library::join)]);
        report.same("a join b join c, from either end", given, [due; 2]);
        defined += usize::from(due != UNDEFINED);
    }
    enough(report, "joins of three that are defined", &[defined], 200);
}
