//! A family of permission policies: a writer and a reader of one cell whose shares may be held together never satisfy a system.

use crate::asking::{Asker, Built};
use crate::draft;
use crate::make::{random_question, random_term, random_tree, Size};
use crate::question::{
    Clause, Question, Relation, MOST_CONSTANTS, MOST_DISEQUATIONS, MOST_POSITIVE,
};
use crate::random::Random;
use crate::report::{Family, Report};

pub const FAMILIES: &[Family] = &[("a writer and a reader held together", never_together)];

const SMALL: Size = Size {
    free: 4,
    own: 3,
    constants: 4,
    height: 3,
    positive: 4,
    disequations: 4,
    policies: true,
};

/// Room is left for the three clauses.
const LARGE: Size = Size {
    free: 6,
    own: 6,
    constants: MOST_CONSTANTS,
    height: 5,
    positive: MOST_POSITIVE - 2,
    disequations: MOST_DISEQUATIONS - 1,
    policies: true,
};

/// A question whose first system has a writer, a reader, perhaps the same share, and that they may be held together.
fn conflict(random: &mut Random, size: &Size) -> Built {
    let mut question = random_question(random, size);
    if question.free + question.constants.len() == 0 {
        question.constants.push(random_tree(random, size.height));
    }
    for clause in writer_and_reader(random, &question) {
        let at = random.below(question.first.len() + 1);
        question.first.insert(at, clause);
    }
    match question.entailment {
        true => draft::entailment(question, 1, 0),
        false => draft::satisfiable(question, false),
    }
}

fn writer_and_reader(random: &mut Random, question: &Question) -> [Clause; 3] {
    let mut term = || random_term(random, question.free, question.constants.len());
    let [writer, other] = [(); 2].map(|_| term().expect("there is a term"));
    let reader = random.pick(&[writer, other]);
    let together = random.pick(&[
        Relation::Together(writer, reader),
        Relation::Together(reader, writer),
    ]);
    [
        (Relation::Full(writer), false),
        (Relation::Empty(reader), true),
        (together, false),
    ]
    .map(|(relation, negated)| Clause { relation, negated })
}

/// How a question was built tells its answer; of the small ones route B must say so too.
fn never_together(report: &mut Report) {
    let mut asker = Asker::new(report);
    for _ in 0..asker.report.rounds(3_000) {
        let small = conflict(&mut asker.random, &SMALL);
        asker.built(&small);
        let large = conflict(&mut asker.random, &LARGE);
        asker.told(&large);
    }
    let ([no, _], [_, vacuous, ..]) = (asker.seen.satisfiable, asker.seen.reasons);
    let both = [no, vacuous].map(|count| count > 1_000);
    asker.report.same_apart("both kinds", both, [true; 2]);
}
