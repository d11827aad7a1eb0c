//! A question while it is built: constants by their leaves, clauses in order.

use crate::asking::Built;
use crate::make::{random_leaves, shuffle};
use crate::question::{Clause, Question, Relation, Term, MOST_CONSTANTS};
use crate::random::Random;
use crate::single::Outcome;
use crate::tree::{tree_of_number, CONSTANT_HEIGHT};

pub const EMPTY: u32 = 0;
pub const FULL: u32 = u32::MAX;

/// The leaves at height 5 that lie below one leaf at a height.
pub fn leaf_mask(height: u32, leaf: usize) -> u32 {
    let below = 32 >> height;
    let mask = ((1_u64 << below) - 1) << (leaf * below);
    mask as u32
}

#[derive(Clone, Copy, Debug, PartialEq, Eq)]
pub enum System {
    First,
    Second,
}

/// The clauses of a system. Positive clauses and disequations keep their order, and are mixed at the end.
#[derive(Clone, Debug, Default)]
pub struct Clauses {
    pub positive: Vec<Relation>,
    pub disequations: Vec<Relation>,
}

#[derive(Clone, Debug, Default)]
pub struct Draft {
    pub free: usize,
    pub own: usize,
    pub constants: Vec<u32>,
    pub first: Clauses,
    pub second: Clauses,
}

impl Draft {
    pub fn new(free: usize, own: usize) -> Draft {
        Draft {
            free,
            own,
            ..Draft::default()
        }
    }

    pub fn variables(&self) -> usize {
        self.free + self.own
    }

    pub fn system(&mut self, system: System) -> &mut Clauses {
        match system {
            System::First => &mut self.first,
            System::Second => &mut self.second,
        }
    }

    /// The constant with these leaves; a new one if there are fewer than `most` so far.
    pub fn constant_within(&mut self, leaves: u32, most: usize) -> Option<Term> {
        if let Some(number) = self.constants.iter().position(|c| *c == leaves) {
            return Some(Term::Constant(number));
        }
        if self.constants.len() >= most {
            return None;
        }
        self.constants.push(leaves);
        Some(Term::Constant(self.constants.len() - 1))
    }

    pub fn constant(&mut self, leaves: u32) -> Term {
        self.constant_within(leaves, MOST_CONSTANTS)
            .expect("room for a constant")
    }

    /// The system in which a variable is held to a value: the first for a free one.
    pub fn home(&mut self, variable: usize) -> &mut Clauses {
        match variable < self.free {
            true => &mut self.first,
            false => &mut self.second,
        }
    }

    /// Holds a variable to a constant.
    pub fn pin(&mut self, variable: usize, leaves: u32) {
        let constant = self.constant(leaves);
        let relation = Relation::Equal(Term::Variable(variable), constant);
        self.home(variable).positive.push(relation);
    }

    /// Holds each variable that is not in `loose` to the empty share or the full one.
    pub fn pin_others(&mut self, random: &mut Random, loose: &[usize]) {
        for variable in 0..self.variables() {
            if !loose.contains(&variable) {
                self.pin(variable, random.pick(&[EMPTY, FULL]));
            }
        }
    }

    /// The question, with constants more that no clause names, of any height, and all constants in another order.
    pub fn finish(mut self, random: &mut Random, entailment: bool) -> Question {
        for _ in 0..random.below(MOST_CONSTANTS - self.constants.len() + 1) {
            let height = random.below(CONSTANT_HEIGHT as usize + 1) as u32;
            self.constants.push(random_leaves(random, height));
        }
        let mut order: Vec<usize> = (0..self.constants.len()).collect();
        shuffle(random, &mut order);
        let mut constants = self.constants.clone();
        for (old, new) in order.iter().enumerate() {
            constants[*new] = self.constants[old];
        }
        Question {
            entailment,
            free: self.free,
            own: self.own,
            constants: constants.into_iter().map(tree_of_number).collect(),
            first: mixed(random, &self.first, &order),
            second: mixed(random, &self.second, &order),
        }
    }
}

/// The clauses of a system, its positive ones and its disequations mixed, with constants renumbered.
fn mixed(random: &mut Random, clauses: &Clauses, order: &[usize]) -> Vec<Clause> {
    let count = clauses.positive.len() + clauses.disequations.len();
    let mut negated = vec![false; count];
    negated[clauses.positive.len()..].fill(true);
    shuffle(random, &mut negated);
    let mut positive = clauses.positive.iter();
    let mut disequations = clauses.disequations.iter();
    let mut next = |negated| {
        let from = if negated {
            &mut disequations
        } else {
            &mut positive
        };
        let relation = renumbered(*from.next().expect("as many as counted"), order);
        Clause { relation, negated }
    };
    negated.into_iter().map(&mut next).collect()
}

/// The same with constants renumbered.
pub fn renumbered(relation: Relation, order: &[usize]) -> Relation {
    relation.with(|term| match term {
        Term::Variable(_) => term,
        Term::Constant(number) => Term::Constant(order[number]),
    })
}

/// A question of kind 0 with the answer it is to give. The rows are left out.
pub fn satisfiable(question: Question, yes: bool) -> Built {
    let height = if yes {
        question.height_if_satisfiable()
    } else {
        0
    };
    let outcome = Outcome {
        yes,
        height,
        reason: 0,
        disequation: 0,
    };
    Built {
        question,
        outcome,
        rows: None,
    }
}

/// A question of kind 1 with the reason it is to give. The rows are left out.
pub fn entailment(question: Question, reason: u8, disequation: usize) -> Built {
    let yes = reason < 2;
    let height = if yes {
        0
    } else {
        question.height_if_not_entailed()
    };
    let outcome = Outcome {
        yes,
        height,
        reason,
        disequation,
    };
    Built {
        question,
        outcome,
        rows: None,
    }
}
