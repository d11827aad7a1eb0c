//! Questions that grow by mutation. What gives a new combination of verdict, refusal, reason and height is
//! kept, and mutated further. Every question depends on the seed alone, so a failure comes again with it.

use crate::asking::ask;
use crate::commands::commands;
use crate::memory::Heap;
use crate::samples;
use crate::shrink::shrunk;
use brute::due::decided;
use brute::judge::ANSWER_BYTES;
use brute::library::ASK_WORK_BYTES;
use brute::question::{hex, read, SORTS};
use brute::random::Random;
use brute::report::{Family, Report};
use std::collections::HashSet;
use std::time::{Duration, Instant};

pub const FAMILIES: &[Family] = &[("mutation", mutation)];

/// How many rounds there are where no seconds are given: some seconds' worth.
const ROUNDS: usize = 80_000;

/// Verdict, refusal number, reason and height.
type Combination = [u8; 4];

fn combination(number: u64) -> Combination {
    let fields = number.to_le_bytes();
    [fields[0], fields[1], fields[5], fields[4]]
}

/// So many failures end the mutation: each is shrunk, which takes time.
const MOST_FAILURES: usize = 5;
/// Questions are cut to so many bytes; no accepted one has more than 925.
const LONGEST: usize = 1500;

fn mutation(report: &mut Report) {
    let mut run = Run::new(report);
    let began = Instant::now();
    let seconds = report.options.seconds.map(Duration::from_secs);
    let rounds = report.rounds(ROUNDS);
    while run.failures < MOST_FAILURES
        && match seconds {
            Some(time) => began.elapsed() < time,
            None => run.round < rounds,
        }
    {
        run.one_round(report);
    }
    enough_seen(report, &run.seen);
    clauses_seen(report, &run.accepted);
    let (rounds, combinations) = (run.round, run.seen.len());
    println!("mutation: {rounds} rounds, {combinations} combinations");
}

struct Run {
    seed: u64,
    random: Random,
    corpus: Vec<Vec<u8>>,
    seen: HashSet<Combination>,
    /// The commands of questions that grew, were asked and were not refused.
    accepted: HashSet<u8>,
    round: usize,
    failures: usize,
}

impl Run {
    /// The corpus at the start, asked once.
    fn new(report: &mut Report) -> Run {
        let mut random = report.random();
        let mut corpus = samples::by_hand();
        corpus.retain(|bytes| bytes.len() <= LONGEST);
        corpus.extend((0..100).map(|_| samples::accepted(&mut random)));
        let mut run = Run {
            seed: report.options.seed,
            random,
            corpus: Vec::new(),
            seen: HashSet::new(),
            accepted: HashSet::new(),
            round: 0,
            failures: 0,
        };
        for bytes in &corpus {
            if run.failures < MOST_FAILURES {
                let number = run.asked(report, bytes);
                run.seen.extend(number.map(combination));
            }
        }
        run.corpus = corpus;
        run
    }

    fn one_round(&mut self, report: &mut Report) {
        self.round += 1;
        let bytes = mutated(&mut self.random, &self.corpus, MOST_MUTATIONS);
        if too_dear(&mut self.random, &bytes) {
            return;
        }
        let Some(combination) = self.asked(report, &bytes).map(combination) else {
            return;
        };
        if combination[0] != 0 {
            let parts = commands(&bytes).into_iter();
            self.accepted.extend(parts.map(|part| bytes[part.start]));
        }
        if self.seen.insert(combination) {
            self.corpus.push(bytes);
        }
    }

    /// The number that asking gives, if nothing is wrong.
    fn asked(&mut self, report: &mut Report, bytes: &[u8]) -> Option<u64> {
        let lengths = lengths(&mut self.random);
        match given(&mut self.random, bytes, lengths) {
            Ok(number) => {
                report.case(Ok(()));
                Some(number)
            }
            Err(fault) => {
                let here = (self.seed, self.round);
                report.case(Err(told(bytes, lengths, here, &fault)));
                self.failures += 1;
                None
            }
        }
    }
}

/// Each refusal of asking, and each verdict with each of its reasons, was there.
fn enough_seen(report: &mut Report, seen: &HashSet<Combination>) {
    for refusal in 1..=12 {
        let there = seen.contains(&[0, refusal, 0, 0]);
        report.same_apart("a refusal was seen", (refusal, there), (refusal, true));
    }
    for (verdict, reason) in [(1, 0), (1, 1), (2, 0), (2, 2), (2, 3)] {
        let there = seen.iter().any(|c| (c[0], c[2]) == (verdict, reason));
        report.same_apart(
            "a verdict was seen",
            (verdict, reason, there),
            (verdict, reason, true),
        );
    }
    let heights = (0..=10).filter(|height| seen.iter().any(|c| c[0] > 0 && c[3] == *height));
    report.same_apart("heights seen", heights.count(), 11);
}

/// Each command of a clause stood in a question that was accepted.
fn clauses_seen(report: &mut Report, accepted: &HashSet<u8>) {
    for command in SORTS.iter().flat_map(|sort| sort.commands) {
        let there = accepted.contains(&command);
        report.same_apart("a command was seen", (command, there), (command, true));
    }
}

/// Lengths of buffers: mostly enough, now and then round the edge.
fn lengths(random: &mut Random) -> (usize, usize) {
    if random.once_in(16) {
        let near = |random: &mut Random, edge| random.between(edge - 3, edge + 3);
        return (near(random, ANSWER_BYTES), near(random, ASK_WORK_BYTES));
    }
    (ANSWER_BYTES, ASK_WORK_BYTES)
}

/// The number that asking gives, or what is wrong.
fn given(random: &mut Random, bytes: &[u8], lengths: (usize, usize)) -> Result<u64, String> {
    ask(
        &decided(bytes),
        &mut Heap::holding(random, 0, bytes),
        &mut Heap::new(random, 0, lengths.0),
        &mut Heap::new(random, 0, lengths.1),
    )
}

/// The failure, with the smallest question found that fails too.
fn told(bytes: &[u8], lengths: (usize, usize), (seed, round): (u64, usize), why: &str) -> String {
    let again = |bytes: &[u8]| given(&mut Random::new(seed), bytes, lengths).err();
    let small = shrunk(bytes, |bytes| again(bytes).is_some());
    let small_why = again(&small).unwrap_or_default();
    format!(
        "seed {seed}, round {round}, buffers {lengths:?}: {why}\n  question: {}\n  shrunk: {}\n  that: {small_why}",
        hex(bytes),
        hex(&small)
    )
}

/// Questions over which the brute-force solver sits for long are asked seldom.
fn too_dear(random: &mut Random, bytes: &[u8]) -> bool {
    const CHOICES: usize = 1 << 10;
    let Ok(question) = read(bytes) else {
        return false;
    };
    let choices = 1_usize << (question.height() as usize + question.variables());
    choices > CHOICES && !random.once_in(choices / CHOICES * 8)
}

/// The most mutations of one question.
pub const MOST_MUTATIONS: usize = 4;

/// One mutation of a question of the corpus, or more, up to `most`.
pub fn mutated(random: &mut Random, corpus: &[Vec<u8>], most: usize) -> Vec<u8> {
    let mut bytes = corpus[random.below(corpus.len())].clone();
    for _ in 0..random.between(1, most) {
        let other = &corpus[random.below(corpus.len())];
        if random.once_in(3) {
            mutate_bytes(random, &mut bytes, other);
        } else {
            mutate_commands(random, &mut bytes, other);
        }
    }
    bytes.truncate(LONGEST);
    bytes
}

/// A mutation that does not heed commands.
fn mutate_bytes(random: &mut Random, bytes: &mut Vec<u8>, other: &[u8]) {
    let at = random.below(bytes.len() + 1);
    match random.below(6) {
        0 => bytes.truncate(at),
        1 => bytes.insert(at, random.byte()),
        2 => {
            let end = (at + random.between(1, 8)).min(bytes.len());
            bytes.drain(at..end);
        }
        3 => {
            bytes.truncate(at);
            bytes.extend(&other[random.below(other.len() + 1)..]);
        }
        4 => {
            if let Some(byte) = bytes.get_mut(at) {
                *byte ^= 1 << random.below(8);
            }
        }
        _ => {
            if let Some(byte) = bytes.get_mut(at) {
                *byte = random.byte();
            }
        }
    }
}

/// A mutation that leaves commands whole.
fn mutate_commands(random: &mut Random, bytes: &mut Vec<u8>, other: &[u8]) {
    let parts = commands(bytes);
    let others = commands(other);
    if parts.is_empty() || others.is_empty() {
        return bytes.extend(other);
    }
    let part = parts[random.below(parts.len())].clone();
    let command = bytes[part.clone()].to_vec();
    let new = other[others[random.below(others.len())].clone()].to_vec();
    let start = part.start;
    match random.below(8) {
        0 => drop(bytes.drain(part)),
        1 => drop(bytes.splice(start..start, new)),
        2 => drop(bytes.splice(part, new)),
        3 => {
            let times = if random.once_in(3) {
                random.between(1, 70)
            } else {
                1
            };
            drop(bytes.splice(start..start, command.repeat(times)));
        }
        4 => {
            let second = parts[random.below(parts.len())].clone();
            swap(bytes, part, second);
        }
        5 => {
            let from = others[random.below(others.len())].start;
            drop(bytes.splice(start.., other[from..].to_vec()));
        }
        6 => {
            // Another command of a clause takes the operands.
            let sort = &SORTS[random.below(SORTS.len())];
            bytes[start] = random.pick(&sort.commands);
        }
        _ => {
            // An operand takes a value that often means something.
            let operand = random.below(command.len());
            let variable = random.below(13) as u8;
            let constant = 0x20 + random.below(4) as u8;
            bytes[start + operand] = random.pick(&[variable, constant, 0x00, 0xFF]);
        }
    }
}

/// Two commands change places.
fn swap(bytes: &mut Vec<u8>, one: std::ops::Range<usize>, two: std::ops::Range<usize>) {
    let (left, right) = if one.start <= two.start {
        (one, two)
    } else {
        (two, one)
    };
    if left == right {
        return;
    }
    let (first, second) = (bytes[left.clone()].to_vec(), bytes[right.clone()].to_vec());
    bytes.splice(right, first);
    bytes.splice(left, second);
}
