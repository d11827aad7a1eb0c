//! A plain reader of constants from tree text, written as one would without proofs: one recursive pass over the bytes. It must say what
//! the library says, and it is timed.

use crate::asking::{median_round, Buffers};
use crate::families::Family;
use crate::lines::Call;
use brute::calls::constant_due;
use brute::tree::CONSTANT_HEIGHT;
use brute::tree_text::{packed, Read, LONGEST_READ, NOT_FOLDED, NOT_TREE_TEXT, TOO_TALL};
use std::hint::black_box;
use std::slice::Iter;
use std::time::Duration;

struct Reader<'a> {
    rest: Iter<'a, u8>,
    some_pair_folds: bool,
}

/// A tree that was read.
#[derive(Clone, Copy)]
struct Part {
    height: u32,
    /// Its leaves, each as wide as its depth leaves room for.
    leaves: u32,
    /// The leaf that it is, if it is one.
    leaf: Option<u8>,
}

/// How many of the 32 leaves a leaf at this depth stands for.
fn width(depth: u32) -> u32 {
    let leaves: u32 = 1 << CONSTANT_HEIGHT;
    leaves.checked_shr(depth).unwrap_or(0)
}

impl Reader<'_> {
    /// The tree that comes next, within so many pairs.
    fn tree(&mut self, depth: u32) -> Option<Part> {
        let sign = *self.rest.next()?;
        let leaf = |leaves| Part {
            height: 0,
            leaves,
            leaf: Some(sign),
        };
        match sign {
            b'o' => Some(leaf(0)),
            b'*' => Some(leaf(((1_u64 << width(depth)) - 1) as u32)),
            b'(' => self.pair(depth + 1),
            _ => None,
        }
    }

    /// The rest of a pair whose halves are within so many pairs.
    fn pair(&mut self, depth: u32) -> Option<Part> {
        let (left, right) = (self.tree(depth)?, self.tree(depth)?);
        if *self.rest.next()? != b')' {
            return None;
        }
        self.some_pair_folds |= left.leaf.is_some() && left.leaf == right.leaf;
        Some(Part {
            height: 1 + left.height.max(right.height),
            leaves: left.leaves | right.leaves << width(depth),
            leaf: None,
        })
    }
}

fn read(text: &[u8]) -> Read {
    if text.len() > LONGEST_READ {
        return Err(NOT_TREE_TEXT);
    }
    let mut reader = Reader {
        rest: text.iter(),
        some_pair_folds: false,
    };
    match reader.tree(0) {
        Some(tree) if reader.rest.as_slice().is_empty() => {
            if reader.some_pair_folds {
                Err(NOT_FOLDED)
            } else if tree.height > CONSTANT_HEIGHT {
                Err(TOO_TALL)
            } else {
                Ok(tree.leaves)
            }
        }
        _ => Err(NOT_TREE_TEXT),
    }
}

/// The library, this reader and that of tests/brute must give the same.
pub fn must_agree(family: &Family) {
    for text in &family.inputs {
        let given = Buffers::new().call(Call::Constant, text);
        let due = (packed(read(text)), constant_due(text));
        assert_eq!((given, given), due, "{}", family.name);
    }
}

/// This reader's nanoseconds per text.
pub fn time(family: &Family, long: Duration) -> f64 {
    median_round(family, long, |text| {
        black_box(packed(read(black_box(text))))
    })
}
