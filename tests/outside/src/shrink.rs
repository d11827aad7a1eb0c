//! Makes a failing question smaller, greedily: whatever can go while it still fails goes.

use crate::commands::commands;
use std::ops::Range;

/// How often the question is asked again at most.
const MOST_TRIES: usize = 20_000;

pub fn shrunk(bytes: &[u8], fails: impl Fn(&[u8]) -> bool) -> Vec<u8> {
    let mut smallest = bytes.to_vec();
    let mut tries = 0;
    loop {
        let still_fails = |bytes: &Vec<u8>| {
            tries += 1;
            tries <= MOST_TRIES && fails(bytes)
        };
        let steps = steps(&smallest);
        match steps.iter().map(|s| after(&smallest, s)).find(still_fails) {
            Some(smaller) => smallest = smaller,
            None => return smallest,
        }
    }
}

/// One step to a smaller question.
enum Step {
    Without(Range<usize>),
    /// The byte at a place becomes one that is less.
    Less(usize, u8),
}

fn after(bytes: &[u8], step: &Step) -> Vec<u8> {
    let mut smaller = bytes.to_vec();
    match step {
        Step::Without(part) => drop(smaller.drain(part.clone())),
        Step::Less(at, byte) => smaller[*at] = *byte,
    }
    smaller
}

/// The steps, the large ones first: without half of the commands, a quarter and so on down to one; without one
/// byte; with a byte that is less.
fn steps(bytes: &[u8]) -> Vec<Step> {
    let parts = commands(bytes);
    let mut steps = Vec::new();
    let mut size = parts.len() / 2;
    while size > 0 {
        let together = |chunk: &[Range<usize>]| chunk[0].start..chunk[chunk.len() - 1].end;
        steps.extend(parts.chunks(size).map(together).map(Step::Without));
        size /= 2;
    }
    steps.extend((0..bytes.len()).map(|at| Step::Without(at..at + 1)));
    for (at, &byte) in bytes.iter().enumerate() {
        let less = [0, byte / 2, byte.saturating_sub(1)];
        let less = less.into_iter().filter(|less| *less < byte);
        steps.extend(less.map(|less| Step::Less(at, less)));
    }
    steps
}
