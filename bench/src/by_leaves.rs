//! The join and the height of constants by loops over the 32 leaves, as one would write them plainly. They must give what the library
//! gives, and they are timed. They are not inlined: both sides of the comparison are calls.

use crate::asking::Buffers;
use crate::families::Family;
use crate::lines::Call;
use crate::numbers::numbers;
use brute::calls::{height_due, join_due, UNDEFINED};
use brute::tree::CONSTANT_HEIGHT;

const LEAVES: usize = 1 << CONSTANT_HEIGHT;

/// Stops at the first leaf that is full in both.
#[inline(never)]
pub fn join(a: u32, b: u32) -> u64 {
    let mut sum = 0;
    for leaf in 0..LEAVES {
        let (in_a, in_b) = (a >> leaf & 1, b >> leaf & 1);
        if in_a == 1 && in_b == 1 {
            return UNDEFINED;
        }
        sum += u64::from(in_a + in_b) << leaf;
    }
    sum
}

/// Folds level by level, until a level has a pair whose halves differ. Of a block that is folded its first leaf is looked at.
#[inline(never)]
pub fn height(a: u32) -> u32 {
    let leaf = |number: usize| a >> number & 1;
    let mut height = CONSTANT_HEIGHT;
    let mut block = 1;
    while block < LEAVES {
        let mut pairs = (0..LEAVES).step_by(2 * block);
        if pairs.any(|first| leaf(first) != leaf(first + block)) {
            return height;
        }
        height -= 1;
        block *= 2;
    }
    height
}

/// The library, the loop and tests/brute must give the same join.
pub fn joins_must_agree(family: &Family) {
    for input in &family.inputs {
        let [a, b] = numbers(input);
        let given = Buffers::new().call(Call::Join, input);
        assert_eq!(
            (given, given),
            (join(a, b), join_due(a, b)),
            "{}",
            family.name
        );
    }
}

/// The same of the height.
pub fn heights_must_agree(family: &Family) {
    for input in &family.inputs {
        let [a] = numbers(input);
        let given = Buffers::new().call(Call::Height, input);
        let due = [height(a), height_due(a)].map(u64::from);
        assert_eq!([given, given], due, "{}", family.name);
    }
}
