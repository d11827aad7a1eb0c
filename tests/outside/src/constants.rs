//! The calls that take numbers: every leaf, random numbers, and arguments whose register holds more than the number.

use brute::calls::{height_due, join_due};
use brute::library::bare::{zimorgal_height, zimorgal_join};
use brute::make::random_leaves;
use brute::random::Random;
use brute::report::{Family, Report};

pub const FAMILIES: &[Family] = &[("join and height", join_and_height)];

type Join = unsafe extern "C" fn(u32, u32) -> u64;
type Height = unsafe extern "C" fn(u32) -> u32;
/// A caller may leave anything in the high half of a register that passes 32 bits.
type WideJoin = unsafe extern "C" fn(u64, u64) -> u64;
type WideHeight = unsafe extern "C" fn(u64) -> u32;

/// A number in the low half, and anything in the high half.
fn wide(random: &mut Random, number: u32) -> u64 {
    let high = random.pick(&[0, 1, u32::MAX, 0x8000_0000]);
    u64::from(number) | u64::from(high) << 32
}

fn join_and_height(report: &mut Report) {
    let mut random = report.random();
    // The calls take whole registers, of which the low halves count.
    let (join, height) = unsafe {
        (
            std::mem::transmute::<Join, WideJoin>(zimorgal_join),
            std::mem::transmute::<Height, WideHeight>(zimorgal_height),
        )
    };
    let one_leaf = (0..32).map(|leaf| 1 << leaf);
    let pairs = one_leaf.flat_map(|a: u32| [(a, a), (a, !a), (a, 0), (0, a), (!a, !a)]);
    let mut pairs: Vec<(u32, u32)> = pairs.collect();
    for _ in 0..report.rounds(20_000) {
        let a = random_leaves(&mut random, 5);
        let b = random_leaves(&mut random, 5);
        pairs.extend([(a, b), (a, b & !a)]);
    }
    for (a, b) in pairs {
        // Only numbers are passed.
        let joined = unsafe { join(wide(&mut random, a), wide(&mut random, b)) };
        report.same("join", (a, b, joined), (a, b, join_due(a, b)));
        // Only a number is passed.
        let tall = unsafe { height(wide(&mut random, a)) };
        report.same("height", (a, tall), (a, height_due(a)));
    }
}
