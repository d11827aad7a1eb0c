//! Slips: one sentence of the fixed solution's is misread at a time. On many questions each slip shows other rows, and the
//! comparison with the library notices.

use crate::asking::Asker;
use crate::due::{Answered, Decided};
use crate::fixed::{AsWritten, Asked, Choice, Held, Leaf, Words};
use crate::make::{crowded, entailment, random_question, Counts, Size, CHANGES};
use crate::question::{Question, MOST_DISEQUATIONS};
use crate::random::Random;
use crate::report::{Family, Report};
use crate::single::{decide, Outcome};

pub const FAMILIES: &[Family] = &[("slips in the fixed solution", slips_noticed)];

/// "Full before empty" has no slip of its own: it is the greatest choice with empty before full.
const SLIPS: [(&str, &dyn Words); 9] = [
    ("the rightmost leaf", &Rightmost),
    ("the leaf's disequations in reverse", &Reverse),
    ("idle sub-leaves hold the last disequation again", &Again),
    ("the greatest choice", &Greatest),
    ("the last variable compared first", &LastFirst),
    ("the choice with the fewest full values", &Fewest),
    ("reason 2: the rightmost leaf", &RightmostUnmet),
    ("reason 2: after the disequations", &After),
    ("reason 3: choices that can have the named one", &CanHave),
];

fn rightmost(leaves: &[Leaf], held: Held) -> usize {
    let rightmost = leaves.iter().rposition(|leaf| leaf.can_meet(held));
    rightmost.expect("it can be met at some leaf")
}

struct Rightmost;

impl Words for Rightmost {
    fn leftmost(&self, leaves: &[Leaf], held: Held) -> usize {
        match held {
            Held::Unmet => AsWritten.leftmost(leaves, held),
            _ => rightmost(leaves, held),
        }
    }
}

struct RightmostUnmet;

impl Words for RightmostUnmet {
    fn reason_2(&self, leaves: &[Leaf], held: &mut [Vec<Held>]) {
        held[rightmost(leaves, Held::Unmet)].insert(0, Held::Unmet);
    }
}

struct Reverse;

impl Words for Reverse {
    fn in_order(&self, placed: &[(usize, Held)], leaf: usize) -> Vec<Held> {
        let here = placed.iter().rev().filter(|(at, _)| *at == leaf);
        here.map(|(_, held)| *held).collect()
    }
}

struct Again;

impl Words for Again {
    fn then(&self, held: &[Held]) -> Held {
        held.last().copied().unwrap_or(Held::Nothing)
    }
}

struct Greatest;

impl Words for Greatest {
    fn least<'a>(&self, choices: Vec<&'a Choice>) -> &'a Choice {
        let greatest = choices.into_iter().max();
        greatest.expect("there is such a choice")
    }
}

struct LastFirst;

impl Words for LastFirst {
    fn least<'a>(&self, choices: Vec<&'a Choice>) -> &'a Choice {
        let from_the_last = |choice: &&Choice| -> Choice { choice.iter().rev().copied().collect() };
        let least = choices.into_iter().min_by_key(from_the_last);
        least.expect("there is such a choice")
    }
}

struct Fewest;

impl Words for Fewest {
    fn least<'a>(&self, choices: Vec<&'a Choice>) -> &'a Choice {
        let full = |choice: &Choice| choice.iter().filter(|full| **full).count();
        let fewest = choices.into_iter().min_by_key(|c| (full(c), *c));
        fewest.expect("there is such a choice")
    }
}

struct After;

impl Words for After {
    fn reason_2(&self, leaves: &[Leaf], held: &mut [Vec<Held>]) {
        held[self.leftmost(leaves, Held::Unmet)].push(Held::Unmet);
    }
}

struct CanHave;

impl Words for CanHave {
    fn reason_3(&self, _: &Asked, _: &Choice, _: &[bool]) -> bool {
        true
    }
}

/// How often each slip changed the rows that are shown.
#[derive(Default)]
pub struct Changed([usize; SLIPS.len()]);

impl Changed {
    /// The rows of each slip that shows others than these, which are the right ones.
    pub fn note(&mut self, question: &Question, outcome: &Outcome, right: &[u8]) -> Vec<Vec<u8>> {
        let asked = Asked::new(question, outcome);
        let mut wrong = Vec::new();
        for (count, (_, slip)) in self.0.iter_mut().zip(SLIPS) {
            let rows = slip.rows(&asked);
            if rows != right {
                *count += 1;
                wrong.push(rows);
            }
        }
        wrong
    }

    /// Each slip changed the rows so often.
    pub fn enough(&self, report: &mut Report, least: usize) {
        enough(report, "rows", SLIPS.map(|(name, _)| name), self.0, least);
    }
}

/// Each slip, by its name, changed the rows or the results so often.
pub fn enough<const COUNT: usize>(
    report: &mut Report,
    what: &str,
    names: [&str; COUNT],
    changed: [usize; COUNT],
    least: usize,
) {
    println!("how often each slip changed the {what}: {changed:?}");
    for (name, count) in names.into_iter().zip(changed) {
        report.apart(match count >= least {
            true => Ok(()),
            false => Err(format!("{name}: changed the {what} {count} times")),
        });
    }
}

const SMALL: Size = Size {
    free: 5,
    own: 3,
    constants: 4,
    height: 3,
    positive: 3,
    disequations: 5,
    policies: true,
};

pub fn some_question(random: &mut Random) -> Question {
    let mut counts = || Counts {
        positive: random.below(4),
        disequations: random.below(6),
        policies: true,
    };
    let clauses = (counts(), counts());
    match random.below(3) {
        0 => random_question(random, &SMALL),
        1 => {
            let (variables, constants) = ((random.between(1, 5), random.below(4)), (4, 3));
            let change = random.pick(&CHANGES);
            entailment(random, variables, constants, clauses, change)
        }
        _ => {
            let (entailment, count) = (random.once_in(2), random.below(MOST_DISEQUATIONS + 1));
            crowded(random, entailment, count)
        }
    }
}

/// The library is asked each question twice and more: with the rows that are due, and with those of each slip that shows
/// others, which must be found wrong.
fn slips_noticed(report: &mut Report) {
    let mut asker = Asker::new(report);
    let mut changed = Changed::default();
    for _ in 0..asker.report.rounds(8_000) {
        let question = some_question(&mut asker.random);
        asker.question(&question);
        let right = Answered::new(question.clone(), decide(&question));
        let Some(rows) = &right.rows else {
            continue;
        };
        for wrong in changed.note(&question, &right.outcome, rows) {
            let slipped = Answered {
                question: question.clone(),
                outcome: right.outcome,
                rows: Some(wrong),
            };
            let bytes = asker.mixed(&question);
            asker.notices(&bytes, &Decided::Answered(slipped));
        }
    }
    changed.enough(asker.report, 50);
    asker.seen.kind_0(asker.report, 200);
    asker.seen.kind_1(asker.report, 200);
}
