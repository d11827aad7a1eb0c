//! Families of route A against route B: verdict, reason and disequation number; the fixed solution, by the judge and by
//! route A. The library has no part in it.

use crate::fixed;
use crate::judge::{extension_by_leaf, judge, trees_of_rows};
use crate::make::{entailment, random_question, random_system, random_tree, Counts, Size, CHANGES};
use crate::named::{among, height_of_others, Tallest};
use crate::question::{hex, read, write_in_order, Question, MOST_CONSTANTS, MOST_VARIABLES};
use crate::random::Random;
use crate::report::{Family, Report};
use crate::seen::Seen;
use crate::single::{decide, Outcome};
use crate::whole::{
    entails, extension_of_trees, own_height, satisfiable, tree_count, Trees, Verdict, TALLEST,
};
use crate::worked;

pub const FAMILIES: &[Family] = &[
    ("both routes: worked questions", worked_questions),
    ("both routes: random questions", random_questions),
    ("both routes: one height more", one_height_more),
    ("both routes: entailments", entailments),
    ("both routes: up to 12 variables", many_variables),
    ("both routes: few of 32 constants named", few_named),
];

/// The most assignments of whole trees that one case may have.
const MOST_ASSIGNMENTS: usize = 1 << 16;

/// The heights up to which route A tries free and own trees, `more` above those that are enough.
fn heights(question: &Question, more: u32) -> (u32, u32) {
    if question.entailment {
        let free = question.height_if_not_entailed() + more;
        (free, own_height(question, free))
    } else {
        (question.height_if_satisfiable() + more, 0)
    }
}

/// Whether route A can try all assignments.
pub fn affordable(question: &Question, more: u32) -> bool {
    let (free, own) = heights(question, more);
    if free.max(own) > TALLEST {
        return false;
    }
    let mut assignments = 1_usize;
    for (variables, height) in [(question.free, free), (question.own, own)] {
        for _ in 0..variables {
            assignments = assignments.saturating_mul(tree_count(height));
        }
    }
    assignments <= MOST_ASSIGNMENTS
}

fn verdict_by_trees(trees: &Trees, question: &Question, more: u32) -> Verdict {
    let (free, own) = heights(question, more);
    if question.entailment {
        return entails(trees, question, free, own);
    }
    Verdict {
        yes: satisfiable(trees, question, free),
        reason: 0,
        disequation: 0,
    }
}

/// Both routes give one verdict, and the judge and route A accept the fixed solution.
fn same_by_both(trees: &Trees, question: &Question, more: u32) -> Result<(), String> {
    let outcome = decide(question);
    let by_trees = verdict_by_trees(trees, question, more);
    let by_leaf = Verdict {
        yes: outcome.yes,
        reason: outcome.reason,
        disequation: outcome.disequation,
    };
    let fault = if by_trees != by_leaf {
        Some(format!("route A {by_trees:?}, route B {by_leaf:?}"))
    } else {
        fault_of_shown(trees, question, &outcome)
    };
    match fault {
        None => Ok(()),
        Some(fault) => Err(format!("{}: {fault}", hex(&write_in_order(question)))),
    }
}

fn fault_of_shown(trees: &Trees, question: &Question, outcome: &Outcome) -> Option<String> {
    let rows = fixed::rows(question, outcome)?;
    if let Err(flaw) = judge(question, outcome, &rows) {
        return Some(format!("the fixed solution: {flaw:?}"));
    }
    if !question.entailment {
        return None;
    }
    let solution = trees_of_rows(question, &rows);
    let (_, own) = heights(question, 0);
    let by_trees = extension_of_trees(trees, question, &solution, own);
    let by_leaf = extension_by_leaf(question, &solution);
    (by_trees != by_leaf).then(|| format!("extension by trees {by_trees:?}, by leaf {by_leaf:?}"))
}

/// Compares the routes on questions as they are made, until there were so many that route A can try, and prints how
/// many it could not.
struct Both<'a> {
    report: &'a mut Report,
    random: Random,
    trees: Trees,
    seen: Seen,
    tallest: Tallest,
    too_dear: usize,
}

impl Both<'_> {
    fn new(report: &mut Report) -> Both<'_> {
        Both {
            random: report.random(),
            report,
            trees: Trees::new(),
            seen: Seen::default(),
            tallest: Tallest::default(),
            too_dear: 0,
        }
    }

    fn question(&mut self, question: &Question, more: u32) {
        self.seen.note(question, &decide(question));
        self.tallest.note(question);
        let compared = same_by_both(&self.trees, question, more);
        self.report.apart(compared);
    }

    fn questions(&mut self, count: usize, more: u32, make: impl Fn(&mut Random) -> Question) {
        let mut left = count;
        while left > 0 {
            let question = make(&mut self.random);
            if affordable(&question, more) {
                self.question(&question, more);
                left -= 1;
            } else {
                self.too_dear += 1;
            }
        }
    }

    fn finish(self) {
        println!("questions too dear for route A: {}", self.too_dear);
    }
}

fn worked_questions(report: &mut Report) {
    let mut both = Both::new(report);
    for worked in worked::all() {
        let question = read(&worked::bytes(worked.bytes)).expect("a worked question");
        if affordable(&question, 0) {
            both.question(&question, 0);
        } else {
            both.too_dear += 1;
        }
    }
    let compared = both.seen.refusals[0];
    both.report
        .same_apart("most were compared", compared >= 80, true);
    both.finish();
}

const SMALL: Size = Size {
    free: 3,
    own: 2,
    constants: 2,
    height: 2,
    positive: 3,
    disequations: 3,
    policies: true,
};

fn random_questions(report: &mut Report) {
    let mut both = Both::new(report);
    let count = both.report.rounds(8_000);
    both.questions(count, 0, |random| random_question(random, &SMALL));
    both.seen.kind_0(both.report, 100);
    both.seen.kind_1(both.report, 100);
    both.finish();
}

fn one_height_more(report: &mut Report) {
    let mut both = Both::new(report);
    let count = both.report.rounds(4_000);
    both.questions(count, 1, |random| random_question(random, &SMALL));
    both.seen.kind_0(both.report, 50);
    both.seen.kind_1(both.report, 50);
    both.finish();
}

fn entailments(report: &mut Report) {
    let mut both = Both::new(report);
    for change in CHANGES {
        let count = both.report.rounds(1_500);
        both.questions(count, 0, |random| {
            let sizes = (random.between(1, 3), random.below(3));
            let constants = (random.between(1, 3), random.below(2) as u32);
            let clauses = (counts(random, 2, 2), counts(random, 2, 2));
            entailment(random, sizes, constants, clauses, change)
        });
    }
    both.seen.kind_1(both.report, 100);
    both.finish();
}

fn counts(random: &mut Random, positive: usize, disequations: usize) -> Counts {
    Counts {
        positive: random.below(positive + 1),
        disequations: random.below(disequations + 1),
        policies: true,
    }
}

/// Few constants that clauses name among 32, of which the others are taller or lower.
fn few_named(report: &mut Report) {
    let mut both = Both::new(report);
    let count = both.report.rounds(3_000);
    both.questions(count, 0, |random| {
        let question = random_question(random, &SMALL);
        let height = height_of_others(random);
        among(random, &question, MOST_CONSTANTS, height)
    });
    both.tallest.enough(both.report, 500);
    both.seen.kind_0(both.report, 50);
    both.seen.kind_1(both.report, 50);
    both.finish();
}

/// Every number of free and own variables, with few disequations and low constants where there are many.
fn many_variables(report: &mut Report) {
    let mut both = Both::new(report);
    let count = both.report.rounds(12);
    for variables in 0..=MOST_VARIABLES {
        both.questions(4 * count, 0, |random| of_size(random, false, variables, 0));
        for own in 0..=variables {
            both.questions(count, 0, |random| {
                of_size(random, true, variables - own, own)
            });
        }
    }
    both.seen.kind_0(both.report, 20);
    both.seen.kind_1(both.report, 20);
    both.finish();
}

fn of_size(random: &mut Random, entailment: bool, free: usize, own: usize) -> Question {
    let height = random.below(2) as u32;
    let constants: Vec<_> = (0..random.below(4))
        .map(|_| random_tree(random, height))
        .collect();
    let first = counts(random, 6, 2);
    let second = match entailment {
        true => counts(random, 6, 2),
        false => counts(random, 0, 0),
    };
    let count = constants.len();
    Question {
        entailment,
        free,
        own,
        constants,
        first: random_system(random, free, count, first),
        second: random_system(random, free + own, count, second),
    }
}
