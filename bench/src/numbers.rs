//! The families of numbers, which are constants of 32 leaves: pairs that are joined, and single ones that are measured.

use crate::asking::median_of_rounds;
use crate::families::Family;
use brute::calls::height_due;
use brute::make::{shuffle, unfolded_bits};
use brute::random::Random;
use brute::tree::CONSTANT_HEIGHT;
use std::hint::black_box;
use std::iter::repeat_with;
use std::time::Duration;

const INPUTS: usize = 1000;
/// How often a round has all inputs, so that reading the clock costs nothing beside it.
const TIMES: usize = 20;

/// The bytes of an input are its numbers, each lowest byte first.
fn family<const COUNT: usize>(name: &str, inputs: Vec<[u32; COUNT]>) -> Family {
    let bytes = |numbers: [u32; COUNT]| numbers.map(u32::to_le_bytes).concat();
    Family {
        name: name.to_string(),
        inputs: inputs.into_iter().map(bytes).collect(),
    }
}

/// The numbers of an input.
pub fn numbers<const COUNT: usize>(input: &[u8]) -> [u32; COUNT] {
    std::array::from_fn(|at| {
        let bytes = input[4 * at..4 * at + 4].try_into();
        u32::from_le_bytes(bytes.expect("four bytes"))
    })
}

fn disjoint(random: &mut Random) -> [u32; 2] {
    let a = random.number() as u32;
    [a, random.number() as u32 & !a]
}

fn share_one_leaf(random: &mut Random) -> [u32; 2] {
    let shared = 1 << random.below(32);
    disjoint(random).map(|number| number | shared)
}

/// A number whose folded tree has just this height.
fn of_height(random: &mut Random, height: u32) -> [u32; 1] {
    let mut low = repeat_with(|| unfolded_bits(random.number(), height));
    let found = low.find(|number| height_due(*number) == height);
    [found.expect("one comes")]
}

/// The families of pairs.
pub fn pairs() -> [Family; 2] {
    let mut random = Random::new(111);
    let all_defined = repeat_with(|| disjoint(&mut random)).take(INPUTS).collect();
    let mut half_defined: Vec<[u32; 2]> = (0..INPUTS)
        .map(|number| match number % 2 {
            0 => disjoint(&mut random),
            _ => share_one_leaf(&mut random),
        })
        .collect();
    shuffle(&mut random, &mut half_defined);
    [
        family("join, random numbers that share no leaf", all_defined),
        family(
            "join, random numbers, half the pairs share one leaf",
            half_defined,
        ),
    ]
}

/// The families of single numbers.
pub fn singles() -> [Family; 3] {
    let mut random = Random::new(112);
    let heights = (0..=CONSTANT_HEIGHT).cycle().take(INPUTS);
    let mut any: Vec<[u32; 1]> = heights.map(|h| of_height(&mut random, h)).collect();
    shuffle(&mut random, &mut any);
    let tallest = repeat_with(|| of_height(&mut random, CONSTANT_HEIGHT));
    [
        family("height, 0 to 5 in random order", any),
        family(
            "height, the full leaf again and again",
            vec![[u32::MAX]; INPUTS],
        ),
        family(
            "height, random numbers of height 5",
            tallest.take(INPUTS).collect(),
        ),
    ]
}

/// The inputs of a round: all of them so often, each time in another order, so that the processor does not learn what comes next.
fn round_of<const COUNT: usize>(family: &Family) -> Vec<[u32; COUNT]> {
    let mut random = Random::new(113);
    let mut inputs: Vec<[u32; COUNT]> = family.inputs.iter().map(|i| numbers(i)).collect();
    let mut round = Vec::new();
    for _ in 0..TIMES {
        shuffle(&mut random, &mut inputs);
        round.extend(&inputs);
    }
    round
}

/// The nanoseconds per input of a call. The inputs are read beforehand, and a call does not wait for what the one before it gave.
pub fn time<const COUNT: usize>(
    family: &Family,
    long: Duration,
    call: impl Fn([u32; COUNT]) -> u64,
) -> f64 {
    let inputs = round_of(family);
    median_of_rounds(inputs.len(), long, || {
        let given = black_box(&inputs).iter().map(|input| call(*input));
        black_box(given.fold(0, u64::wrapping_add));
    })
}

#[cfg(test)]
mod tests {
    use super::{numbers, pairs, singles, INPUTS};
    use brute::calls::height_due;
    use std::collections::HashSet;

    /// How many pairs share no leaf, and how many share just one; each leaf is shared by some pair.
    #[test]
    fn shared_leaves() {
        for (family, defined) in pairs().iter().zip([INPUTS, INPUTS / 2]) {
            let shared = family.inputs.iter().map(|input| {
                let [a, b] = numbers(input);
                a & b
            });
            let shared: Vec<u32> = shared.collect();
            let sharing = |leaves| shared.iter().filter(|s| s.count_ones() == leaves).count();
            assert_eq!((sharing(0), sharing(1)), (defined, INPUTS - defined));
            let places: HashSet<u32> = shared.into_iter().filter(|s| *s > 0).collect();
            assert_eq!(places.len(), if defined < INPUTS { 32 } else { 0 });
        }
    }

    /// How many numbers of each family have each height.
    #[test]
    fn heights() {
        let due = [
            [167, 167, 167, 167, 166, 166],
            [INPUTS, 0, 0, 0, 0, 0],
            [0, 0, 0, 0, 0, INPUTS],
        ];
        for (family, due) in singles().iter().zip(due) {
            let mut counts = [0; 6];
            for input in &family.inputs {
                let [number] = numbers(input);
                counts[height_due(number) as usize] += 1;
            }
            assert_eq!(counts, due, "{}", family.name);
        }
    }
}
