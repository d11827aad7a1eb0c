//! Families of questions that one choice of values decides, wherever it lies among all choices: for every split of
//! 12 variables, in each word of 64 choices, at each leaf.

use crate::asking::Asker;
use crate::pinned::{pinned, Verdict, Wanted, VERDICTS};
use crate::question::MOST_VARIABLES;
use crate::random::Random;
use crate::report::{Family, Report};

pub const FAMILIES: &[Family] = &[
    ("every split of 12 variables", every_split),
    ("every choice of 12 variables", every_choice),
    ("each word of free choices", each_word_of_free),
    ("each word of own choices", each_word_of_own),
    ("each height and leaf", each_leaf),
];

/// How many variables choose among the 64 choices of a word: the last ones.
const IN_A_WORD: usize = 6;

/// A choice by name. The first and the last of a word are not those of all choices, where there is more than one word.
#[derive(Clone, Copy, Debug)]
enum Name {
    AllEmpty,
    AllFull,
    FirstOfAWord,
    LastOfAWord,
    Random,
}

const NAMES: [Name; 5] = [
    Name::AllEmpty,
    Name::AllFull,
    Name::FirstOfAWord,
    Name::LastOfAWord,
    Name::Random,
];

fn random_choice(random: &mut Random, count: usize) -> Vec<bool> {
    (0..count).map(|_| random.once_in(2)).collect()
}

fn named(random: &mut Random, name: Name, count: usize) -> Vec<bool> {
    let mut choice = random_choice(random, count);
    let high = count.saturating_sub(IN_A_WORD);
    let mut end_of_word = |full| {
        choice[high..].fill(full);
        if choice.iter().all(|value| *value == full) && high > 0 {
            choice[random.below(high)] = !full;
        }
    };
    match name {
        Name::AllEmpty => choice.fill(false),
        Name::AllFull => choice.fill(true),
        Name::FirstOfAWord => end_of_word(false),
        Name::LastOfAWord => end_of_word(true),
        Name::Random => {}
    }
    choice
}

/// Asks a question decided by this choice, at a leaf of a height up to `most`. Kind 0 has no own variables.
fn decided_by(asker: &mut Asker, verdict: Verdict, most: u32, free: Vec<bool>, own: Vec<bool>) {
    let height = asker.random.below(most as usize + 1) as u32;
    let wanted = Wanted {
        verdict,
        height,
        leaf: asker.random.below(1 << height),
        own: if verdict.is_entailment() {
            own
        } else {
            Vec::new()
        },
        free,
    };
    let built = pinned(&mut asker.random, &wanted);
    asker.built(&built);
}

fn every_split(report: &mut Report) {
    let mut asker = Asker::new(report);
    for _ in 0..asker.report.rounds(3) {
        for own in 0..=MOST_VARIABLES {
            for verdict in VERDICTS {
                for names in NAMES.map(|free| NAMES.map(|own| (free, own))).concat() {
                    let free = named(&mut asker.random, names.0, MOST_VARIABLES - own);
                    let own = named(&mut asker.random, names.1, own);
                    decided_by(&mut asker, verdict, 5, free, own);
                }
            }
        }
    }
    seen_all(&asker.seen, asker.report, 3 * 13 * 25);
}

fn seen_all(seen: &crate::seen::Seen, report: &mut Report, least: usize) {
    seen.kind_0(report, least);
    seen.kind_1(report, least);
}

/// Each of the 4,096 choices of 12 variables, for each split of them. With these verdicts it matters that just that
/// choice is seen, the free values and the own ones. Route B is left out: how a question was built tells its answer.
fn every_choice(report: &mut Report) {
    let mut asker = Asker::new(report);
    for own in 0..=MOST_VARIABLES {
        for number in 0..1 << MOST_VARIABLES {
            let verdict = match number % 3 {
                0 if own == 0 => Verdict::Satisfiable,
                1 => Verdict::Missed,
                _ => Verdict::Entailed,
            };
            let mut free: Vec<bool> = digits(number, MOST_VARIABLES).collect();
            let wanted = Wanted {
                verdict,
                height: 0,
                leaf: 0,
                own: free.split_off(MOST_VARIABLES - own),
                free,
            };
            let built = pinned(&mut asker.random, &wanted);
            asker.told(&built);
        }
    }
}

/// The binary digits of a number, the lowest first.
fn digits(number: usize, count: usize) -> impl Iterator<Item = bool> {
    (0..count).map(move |digit| number >> digit & 1 == 1)
}

/// The first choice of a word, the last, and one between.
fn of_word(random: &mut Random, word: usize, count: usize) -> [Vec<bool>; 3] {
    [Some(false), Some(true), None].map(|end| {
        let high = digits(word, count - IN_A_WORD);
        let low = (0..IN_A_WORD).map(|_| end.unwrap_or_else(|| random.once_in(2)));
        high.chain(low).collect()
    })
}

fn each_word_of_free(report: &mut Report) {
    let mut asker = Asker::new(report);
    for count in IN_A_WORD + 1..=MOST_VARIABLES {
        for word in 0..1 << (count - IN_A_WORD) {
            for free in of_word(&mut asker.random, word, count) {
                for verdict in VERDICTS {
                    let own = random_choice(&mut asker.random, MOST_VARIABLES - count);
                    decided_by(&mut asker, verdict, 1, free.clone(), own);
                }
            }
        }
    }
    seen_all(&asker.seen, asker.report, 3 * 126);
}

fn each_word_of_own(report: &mut Report) {
    let mut asker = Asker::new(report);
    for count in IN_A_WORD + 1..=MOST_VARIABLES {
        for word in 0..1 << (count - IN_A_WORD) {
            for own in of_word(&mut asker.random, word, count) {
                for verdict in VERDICTS.into_iter().filter(|v| v.is_entailment()) {
                    let free = random_choice(&mut asker.random, MOST_VARIABLES - count);
                    decided_by(&mut asker, verdict, 1, free, own.clone());
                }
            }
        }
    }
    asker.seen.kind_1(asker.report, 3 * 126);
}

/// Each leaf of each height, with each verdict, some times.
fn each_leaf(report: &mut Report) {
    let mut asker = Asker::new(report);
    for height in 0..=5 {
        for leaf in 0..1 << height {
            for verdict in VERDICTS.repeat(asker.report.rounds(4)) {
                let variables = asker.random.below(MOST_VARIABLES + 1);
                let own = match verdict.is_entailment() {
                    true => asker.random.below(variables + 1),
                    false => 0,
                };
                let wanted = Wanted {
                    verdict,
                    height,
                    leaf,
                    free: random_choice(&mut asker.random, variables - own),
                    own: random_choice(&mut asker.random, own),
                };
                let built = pinned(&mut asker.random, &wanted);
                asker
                    .report
                    .same_apart("height", built.question.height(), height);
                asker.built(&built);
            }
        }
    }
    seen_all(&asker.seen, asker.report, 4 * 63);
}
