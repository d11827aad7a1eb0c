//! Families in which one term of one clause decides: each constant and each variable, in each place of each clause.

use crate::asking::{Asker, Built};
use crate::draft::{self, leaf_mask, EMPTY, FULL};
use crate::make::random_leaves;
use crate::question::{Clause, Question, Relation, Term, MOST_CONSTANTS, MOST_VARIABLES};
use crate::random::Random;
use crate::report::{Family, Report};
use crate::tree::tree_of_number;

pub const FAMILIES: &[Family] = &[
    ("each constant in each place", each_constant),
    ("each variable in each place", each_variable),
];

const PLACES: usize = 9;
/// The place in which the relation fails where the term is empty.
const MAY_WRITE: usize = 8;

/// A relation with the term in one of the places and empty or full shares in the others: it fails where the term is full, but for
/// one place.
fn placed(place: usize, term: Term, [empty, full]: [Term; 2]) -> Relation {
    match place {
        0 => Relation::Equal(term, empty),
        1 => Relation::Equal(empty, term),
        2 => Relation::Join(term, empty, empty),
        3 => Relation::Join(empty, term, empty),
        4 => Relation::Join(empty, empty, term),
        5 => Relation::Empty(term),
        6 => Relation::Together(term, full),
        7 => Relation::Together(full, term),
        MAY_WRITE => Relation::Full(term),
        _ => unreachable!("there are {PLACES} places"),
    }
}

/// Where the clause that decides stands, and whether it fails somewhere.
#[derive(Clone, Copy)]
struct Decides {
    place: usize,
    second: bool,
    negated: bool,
    fails: bool,
}

/// All of them for which there is a clause.
fn all() -> impl Iterator<Item = Decides> {
    let decides = (0..PLACES * 8).map(|number| Decides {
        place: number / 8,
        second: number & 1 > 0,
        negated: number & 2 > 0,
        fails: number & 4 > 0,
    });
    let any = Term::Variable(0);
    decides.filter(move |one| placed(one.place, any, [any; 2]).fits(one.negated))
}

impl Decides {
    /// The term's leaves, so that the relation fails at these or at none.
    fn leaves(self, leaves: u32) -> u32 {
        let failing = if self.fails { leaves } else { EMPTY };
        match self.place {
            MAY_WRITE => !failing,
            _ => failing,
        }
    }

    /// Puts the clause in. Kind 0 is asked only with a clause of the first system.
    fn built(self, mut question: Question, term: Term, others: [Term; 2]) -> Built {
        let clause = Clause {
            relation: placed(self.place, term, others),
            negated: self.negated,
        };
        let holds = self.fails == self.negated;
        if self.second {
            question.second.push(clause);
            let reason = match (holds, self.negated) {
                (true, _) => 0,
                (false, false) => 2,
                (false, true) => 3,
            };
            return draft::entailment(question, reason, 0);
        }
        question.first.push(clause);
        match question.entailment {
            true => draft::entailment(question, u8::from(!holds), 0),
            false => draft::satisfiable(question, holds),
        }
    }
}

fn pin(variable: usize, constant: usize) -> Clause {
    Clause {
        relation: Relation::Equal(Term::Variable(variable), Term::Constant(constant)),
        negated: false,
    }
}

/// A question with 32 constants: the empty share, the full one, and others that no clause names.
fn question(random: &mut Random, entailment: bool, [empty, full]: [usize; 2]) -> Question {
    let mut constants: Vec<u32> = (0..MOST_CONSTANTS)
        .map(|_| random_leaves(random, 5))
        .collect();
    (constants[empty], constants[full]) = (EMPTY, FULL);
    Question {
        entailment,
        constants: constants.into_iter().map(tree_of_number).collect(),
        ..Question::default()
    }
}

/// Two numbers of constants that are not this one.
fn others(random: &mut Random, number: usize) -> [usize; 2] {
    let step = random.between(1, MOST_CONSTANTS - 2);
    let other = (number + step) % MOST_CONSTANTS;
    let third = (number + step + 1) % MOST_CONSTANTS;
    if random.once_in(2) {
        [other, third]
    } else {
        [third, other]
    }
}

/// One constant tells leaves apart where the clause fails; the others that clauses name are the same at all.
fn each_constant(report: &mut Report) {
    let mut asker = Asker::new(report);
    for number in 0..MOST_CONSTANTS {
        for decides in all() {
            let random = &mut asker.random;
            let [empty, full] = others(random, number);
            let entailment = decides.second || random.once_in(2);
            let mut question = question(random, entailment, [empty, full]);
            let leaf = leaf_mask(5, random.below(32));
            question.constants[number] = tree_of_number(decides.leaves(leaf));
            question.free = random.between(1, 6);
            for variable in 0..question.free {
                let constant = if variable == 0 {
                    empty
                } else {
                    random.pick(&[empty, full])
                };
                question.first.push(pin(variable, constant));
            }
            let beside = random.pick(&[Term::Variable(0), Term::Constant(empty)]);
            let others = [beside, Term::Constant(full)];
            let built = decides.built(question, Term::Constant(number), others);
            asker.built(&built);
        }
    }
    asker.seen.kind_0(asker.report, 32);
    asker.report.same_apart(
        "each reason",
        asker.seen.reasons.map(|n| n > 100),
        [true; 4],
    );
}

/// One variable, free or own, held to the full share or the empty one. In the first system it is free.
fn each_variable(report: &mut Report) {
    let mut asker = Asker::new(report);
    for number in 0..MOST_VARIABLES {
        for decides in all().chain(all()) {
            let built = one_variable(&mut asker.random, number, decides);
            asker.built(&built);
        }
    }
    asker.seen.kind_0(asker.report, 12);
    let reasons = asker.seen.reasons.map(|n| n > 50);
    asker.report.same_apart("each reason", reasons, [true; 4]);
}

fn one_variable(random: &mut Random, number: usize, decides: Decides) -> Built {
    let [empty, full] = others(random, 0);
    let entailment = decides.second || random.once_in(2);
    let mut question = question(random, entailment, [empty, full]);
    let least = if decides.second { 0 } else { number + 1 };
    question.free = match entailment {
        true => random.between(least, MOST_VARIABLES),
        false => MOST_VARIABLES,
    };
    question.own = MOST_VARIABLES - question.free;
    for variable in 0..MOST_VARIABLES {
        let constant = match (variable == number, decides.leaves(FULL)) {
            (true, FULL) => full,
            (true, _) => empty,
            (false, _) => random.pick(&[empty, full]),
        };
        let system = match variable < question.free {
            true => &mut question.first,
            false => &mut question.second,
        };
        system.push(pin(variable, constant));
    }
    let others = [empty, full].map(Term::Constant);
    decides.built(question, Term::Variable(number), others)
}
