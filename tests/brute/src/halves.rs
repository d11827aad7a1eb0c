//! Joins and heights of constants once more: by halves and blocks of the numbers, without a list of leaves and without folding.

use crate::calls::UNDEFINED;
use crate::tree::{Tree, CONSTANT_HEIGHT};

const LEAVES: u32 = 1 << CONSTANT_HEIGHT;

/// The number whose lowest `width` bits are set.
fn full(width: u32) -> u32 {
    u32::MAX >> (LEAVES - width)
}

/// The folded tree of a number of `width` bits.
fn tree(bits: u32, width: u32) -> Tree {
    if bits == 0 {
        return Tree::Empty;
    }
    if bits == full(width) {
        return Tree::Full;
    }
    let half = width / 2;
    let (left, right) = (tree(bits & full(half), half), tree(bits >> half, half));
    Tree::Pair(Box::new(left), Box::new(right))
}

/// The number of `width` bits that a tree is.
fn number(tree: &Tree, width: u32) -> u32 {
    match tree {
        Tree::Empty => 0,
        Tree::Full => full(width),
        Tree::Pair(left, right) => {
            let half = width / 2;
            number(left, half) + (number(right, half) << half)
        }
    }
}

/// Of folded trees: empty joins anything, full only empty, and pairs join half by half.
fn join_trees(a: &Tree, b: &Tree) -> Option<Tree> {
    match (a, b) {
        (Tree::Empty, other) | (other, Tree::Empty) => Some(other.clone()),
        (Tree::Full, _) | (_, Tree::Full) => None,
        (Tree::Pair(a_left, a_right), Tree::Pair(b_left, b_right)) => {
            let (left, right) = (join_trees(a_left, b_left)?, join_trees(a_right, b_right)?);
            Some(Tree::Pair(Box::new(left), Box::new(right)))
        }
    }
}

/// The join in the low half, or exactly 2^32.
pub fn join_by_halves(a: u32, b: u32) -> u64 {
    let joined = join_trees(&tree(a, LEAVES), &tree(b, LEAVES));
    joined.map_or(UNDEFINED, |tree| u64::from(number(&tree, LEAVES)))
}

/// The least height at which each block of leaves is all empty or all full.
pub fn height_by_blocks(a: u32) -> u32 {
    let alike = |height: &u32| {
        let width = LEAVES >> height;
        let mut blocks = (0..1 << height).map(|block| a >> (block * width) & full(width));
        blocks.all(|block| block == 0 || block == full(width))
    };
    let least = (0..=CONSTANT_HEIGHT).find(alike);
    least.expect("a leaf is a block that is alike")
}
