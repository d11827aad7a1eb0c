//! The fixed solution once more, by whole trees. Of all assignments of trees no taller than the height given that meet the first
//! system's positive clauses, and in each sub-leaf what it is to hold, the fixed solution is the least: compared sub-leaf by
//! sub-leaf from the left. This must give the rows of `fixed`.

use crate::fixed::{self, Held};
use crate::judge::{holds, ANSWER_BYTES};
use crate::make::{entailment, random_question, random_tree, Change, Counts, Size, CHANGES};
use crate::named::among;
use crate::question::{
    disequations, hex, positive, read, write_in_order, Clause, Question, Relation, Term,
    MOST_CONSTANTS,
};
use crate::random::Random;
use crate::report::{Family, Report};
use crate::routes::affordable;
use crate::seen::{enough, Seen};
use crate::single::{decide, Outcome};
use crate::slips::Changed;
use crate::tree::{row_of_tree, Tree, CONSTANT_HEIGHT};
use crate::whole::{assignments, extension_of_trees, Trees};
use crate::worked;

pub const FAMILIES: &[Family] = &[("route A: the fixed solution", fixed_solutions)];

/// A question and an answer that shows a solution.
struct Shown<'a> {
    trees: &'a Trees,
    question: &'a Question,
    outcome: &'a Outcome,
}

/// Trees cut to one leaf of a height: each is that leaf of it. One that is taller is a constant that no clause names, and stays whole.
fn cut(trees: &[Tree], height: u32, leaf: usize) -> Vec<Tree> {
    let cut_one = |tree: &Tree| match tree.unfolded(height) {
        Some(leaves) => Tree::leaf(leaves[leaf]),
        None => tree.clone(),
    };
    trees.iter().map(cut_one).collect()
}

/// The question cut to each leaf of a height.
fn cut_everywhere(question: &Question, height: u32) -> Vec<Question> {
    let cut_at = |leaf| Question {
        constants: cut(&question.constants, height, leaf),
        ..question.clone()
    };
    (0..1 << height).map(cut_at).collect()
}

/// The values of all trees at the first leaf, then at the second, and so on.
fn by_leaf(trees: &[Tree], height: u32) -> Vec<Vec<bool>> {
    let unfolded: Vec<Vec<bool>> = trees.iter().map(|tree| tree.leaves(height)).collect();
    let at = |leaf: usize| unfolded.iter().map(|leaves| leaves[leaf]).collect();
    (0..1 << height).map(at).collect()
}

impl Shown<'_> {
    /// All assignments no taller than `height` that meet the first system's positive clauses and, for reason 3, cannot have the
    /// named disequation. For a single one own trees need not be taller.
    fn assignments(&self, height: u32) -> Vec<Vec<Tree>> {
        let clauses = positive(&self.question.first);
        let mut all = assignments(self.trees, self.question, clauses, height);
        if self.outcome.reason == 3 {
            let had = |free: &[Tree]| {
                extension_of_trees(self.trees, self.question, free, height).had
                    [self.outcome.disequation]
            };
            all.retain(|free| !had(free));
        }
        all
    }

    /// Whether trees that are cut to a leaf, like the question, meet what is held there.
    fn meet(&self, question: &Question, trees: &[Tree], held: Held) -> bool {
        match held {
            Held::Disequation(clause) => holds(question, &clause, trees),
            Held::Unmet => !extension_of_trees(self.trees, question, trees, 0).met,
            Held::Nothing => true,
        }
    }

    /// The leftmost leaf at which any assignment no taller than h meets this.
    fn leaf_of(&self, held: Held) -> usize {
        let height = self.question.height();
        let questions = cut_everywhere(self.question, height);
        let leftmost = |trees: &Vec<Tree>| {
            (0..1 << height)
                .find(|leaf| self.meet(&questions[*leaf], &cut(trees, height, *leaf), held))
        };
        let assignments = self.assignments(height);
        let leaves = assignments.iter().filter_map(leftmost);
        leaves.min().expect("it can be met at some leaf")
    }

    /// What is held, and in which sub-leaf.
    fn places(&self) -> Vec<(usize, Held)> {
        let mut held: Vec<Held> = disequations(&self.question.first)
            .into_iter()
            .map(Held::Disequation)
            .collect();
        if self.outcome.reason == 2 {
            held.insert(0, Held::Unmet);
        }
        let below = 1 << (self.outcome.height - self.question.height());
        let mut places: Vec<(usize, Held)> = Vec::new();
        for held in held {
            let mut sub_leaf = self.leaf_of(held) * below;
            while places.iter().any(|(taken, _)| *taken == sub_leaf) {
                sub_leaf += 1;
            }
            places.push((sub_leaf, held));
        }
        places
    }

    /// The least of all assignments that hold everything in its place.
    fn least(&self) -> Vec<Tree> {
        let height = self.outcome.height;
        let questions = cut_everywhere(self.question, height);
        let places = self.places();
        let mut all = self.assignments(height);
        all.retain(|trees| {
            places.iter().all(|(sub_leaf, held)| {
                let trees = cut(trees, height, *sub_leaf);
                self.meet(&questions[*sub_leaf], &trees, *held)
            })
        });
        let least = all.into_iter().min_by_key(|trees| by_leaf(trees, height));
        least.expect("there is a solution")
    }

    fn rows(&self) -> Vec<u8> {
        let mut rows: Vec<u8> = self.least().iter().flat_map(row_of_tree).collect();
        rows.resize(ANSWER_BYTES, 0);
        rows
    }
}

const SMALL: Size = Size {
    free: 3,
    own: 2,
    constants: 2,
    height: 2,
    positive: 2,
    disequations: 3,
    policies: true,
};

/// Three shares of which the first or the second makes a full one with each of the others: where the least choice has more
/// full values than another.
fn complements(random: &mut Random) -> Question {
    let one = random.below(2);
    let full = |other| Relation::Join(Term::Variable(one), other, Term::Constant(0));
    let others = [1 - one, 2].map(Term::Variable);
    let mut first = others.map(|other| (full(other), false)).to_vec();
    if random.once_in(2) {
        let differ = Relation::Equal(random.pick(&others), Term::Constant(1));
        first.push((differ, true));
    }
    let clause = |(relation, negated)| Clause { relation, negated };
    Question {
        free: 3,
        constants: vec![Tree::Full, random_tree(random, 1)],
        first: first.into_iter().map(clause).collect(),
        ..Question::default()
    }
}

/// An entailment, often one with a disequation that cannot be had.
fn some_entailment(random: &mut Random) -> Question {
    let mut counts = || Counts {
        positive: random.below(5),
        disequations: random.below(3),
        policies: true,
    };
    let clauses = (counts(), counts());
    let variables = (random.between(1, 3), random.below(3));
    let constants = (random.between(1, 3), random.below(3) as u32);
    let change = match random.once_in(2) {
        true => Change::Disequation,
        false => random.pick(&CHANGES),
    };
    entailment(random, variables, constants, clauses, change)
}

fn questions(report: &Report) -> Vec<Question> {
    let random = &mut report.random();
    let worked = worked::all().map(|worked| read(&worked::bytes(worked.bytes)));
    let mut questions: Vec<Question> = worked.map(|read| read.expect("worked")).collect();
    for _ in 0..report.rounds(6_000) {
        questions.push(random_question(random, &SMALL));
        questions.push(some_entailment(random));
    }
    for _ in 0..report.rounds(300) {
        questions.push(complements(random));
        let few = random_question(random, &SMALL);
        questions.push(among(random, &few, MOST_CONSTANTS, CONSTANT_HEIGHT));
    }
    questions.retain(|question| affordable(question, 0));
    questions
}

fn fixed_solutions(report: &mut Report) {
    let trees = Trees::new();
    let (mut seen, mut changed) = (Seen::default(), Changed::default());
    let mut among_32 = 0;
    for question in questions(report) {
        let outcome = decide(&question);
        let Some(given) = fixed::rows(&question, &outcome) else {
            continue;
        };
        let shown = Shown {
            trees: &trees,
            question: &question,
            outcome: &outcome,
        };
        let rows = shown.rows();
        seen.note(&question, &outcome);
        among_32 += usize::from(question.constants.len() == MOST_CONSTANTS);
        changed.note(&question, &outcome, &rows);
        report.apart(match given == rows {
            true => Ok(()),
            false => {
                let question = hex(&write_in_order(&question));
                Err(format!("{question}: route A finds another fixed solution"))
            }
        });
    }
    changed.enough(report, 50);
    enough(report, "few of 32 constants named", &[among_32], 60);
    let [_, yes] = seen.satisfiable;
    let [_, _, unmet, missed] = seen.reasons;
    let answers = [yes, unmet, missed];
    enough(report, "each answer that shows a solution", &answers, 200);
}
