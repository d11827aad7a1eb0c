//! Route B: the question falls into 2^h leaves; at each leaf every choice of values is tried by itself,
//! clause by clause. It gives the verdict, the reason, the disequation number and the height.

use crate::question::{disequations, positive, split, Clause, Question, Relation, Split, Term};
use crate::tree::{join_leaves, Tree};

/// What asking gives.
#[derive(Clone, Copy, Debug, PartialEq, Eq)]
pub struct Outcome {
    pub yes: bool,
    pub height: u32,
    pub reason: u8,
    pub disequation: usize,
}

impl Outcome {
    /// Whether a solution is shown: for a yes of kind 0 and a no of kind 1.
    pub fn shows(&self, question: &Question) -> bool {
        self.yes != question.entailment
    }
}

/// A value for each variable: the free ones, or the free ones and the own ones.
type Choice = Vec<bool>;

/// The value of a term at one leaf.
fn value(term: Term, choice: &[bool], constants: &[bool]) -> bool {
    match term {
        Term::Variable(v) => choice[v],
        Term::Constant(c) => constants[c],
    }
}

/// Whether a clause, or its negation, holds at one leaf.
pub fn holds_at_leaf(clause: &Clause, choice: &[bool], constants: &[bool]) -> bool {
    let at = |term| value(term, choice, constants);
    let plain = match clause.relation {
        Relation::Join(a, b, c) => join_leaves(at(a), at(b)) == Some(at(c)),
        Relation::Equal(a, b) => at(a) == at(b),
        Relation::Full(a) => at(a),
        Relation::Empty(a) => !at(a),
        Relation::Together(a, b) => !(at(a) && at(b)),
    };
    plain != clause.negated
}

fn all_hold(clauses: &[Clause], choice: &[bool], constants: &[bool]) -> bool {
    clauses
        .iter()
        .all(|clause| holds_at_leaf(clause, choice, constants))
}

/// All choices of so many values.
pub fn choices(count: usize) -> impl Iterator<Item = Choice> {
    (0..1_usize << count).map(move |number| {
        (0..count)
            .map(|v| (number >> (count - 1 - v)) % 2 == 1)
            .collect()
    })
}

/// The values of all constants at each of the 2^height leaves, a height no less than the question's. A constant that is taller is named by no
/// clause: its value is never looked at.
pub fn constants_by_leaf(question: &Question, height: u32) -> Vec<Vec<bool>> {
    let leaves = |constant: &Tree| {
        let unfolded = constant.unfolded(height);
        unfolded.unwrap_or_else(|| vec![false; 1 << height])
    };
    let unfolded: Vec<Vec<bool>> = question.constants.iter().map(leaves).collect();
    (0..1 << height)
        .map(|leaf| unfolded.iter().map(|leaves| leaves[leaf]).collect())
        .collect()
}

/// What own values can do beside one choice of the free ones, at one leaf.
#[derive(Clone, Debug, PartialEq, Eq)]
pub struct Beside {
    /// Some own values meet the second system's positive clauses.
    pub met: bool,
    /// For each disequation of the second: some own values meet it and the positive clauses.
    pub had: Vec<bool>,
}

pub fn beside(second: &Split, own: usize, choice: &[bool], constants: &[bool]) -> Beside {
    let mut found = Beside {
        met: false,
        had: vec![false; second.disequations.len()],
    };
    for values in choices(own) {
        let whole = [choice, &values].concat();
        if all_hold(&second.positive, &whole, constants) {
            found.met = true;
            for (had, disequation) in found.had.iter_mut().zip(&second.disequations) {
                *had = *had || holds_at_leaf(disequation, &whole, constants);
            }
        }
    }
    found
}

/// A choice that meets the first system's positive clauses at a leaf.
struct Allowed {
    choice: Choice,
    beside: Beside,
}

/// A leaf with the choices allowed there.
struct Leaf {
    constants: Vec<bool>,
    allowed: Vec<Allowed>,
}

fn leaf(question: &Question, constants: Vec<bool>) -> Leaf {
    let clauses = positive(&question.first);
    let second = split(&question.second);
    let mut allowed = Vec::new();
    for choice in choices(question.free) {
        if all_hold(&clauses, &choice, &constants) {
            let beside = beside(&second, question.own, &choice, &constants);
            allowed.push(Allowed { choice, beside });
        }
    }
    Leaf { constants, allowed }
}

/// Whether the first system has a solution with only the choices that count: every leaf has one, and each disequation
/// holds with one of them somewhere.
fn solved(question: &Question, leaves: &[Leaf], counts: impl Fn(&Allowed) -> bool) -> bool {
    let met_at = |leaf: &Leaf, disequation: &Clause| {
        leaf.allowed.iter().any(|allowed| {
            counts(allowed) && holds_at_leaf(disequation, &allowed.choice, &leaf.constants)
        })
    };
    let met = |disequation: &Clause| leaves.iter().any(|leaf| met_at(leaf, disequation));
    leaves.iter().all(|leaf| leaf.allowed.iter().any(&counts))
        && disequations(&question.first).iter().all(met)
}

fn nothing_shown(yes: bool, reason: u8) -> Outcome {
    Outcome {
        yes,
        height: 0,
        reason,
        disequation: 0,
    }
}

/// The whole answer of route B.
pub fn decide(question: &Question) -> Outcome {
    decide_at(question, question.height())
}

/// The same by the leaves of a height no less than the question's; the height given is the one above.
pub fn decide_at(question: &Question, height: u32) -> Outcome {
    let leaves: Vec<Leaf> = constants_by_leaf(question, height)
        .into_iter()
        .map(|constants| leaf(question, constants))
        .collect();
    let has_solution = solved(question, &leaves, |_| true);
    match (question.entailment, has_solution) {
        (true, true) => entails(question, &leaves),
        (true, false) => nothing_shown(true, 1),
        (false, true) => satisfiable(question),
        (false, false) => nothing_shown(false, 0),
    }
}

/// What asking gives of a question of kind 0 that has a solution.
pub fn satisfiable(question: &Question) -> Outcome {
    Outcome {
        yes: true,
        height: question.height_if_satisfiable(),
        reason: 0,
        disequation: 0,
    }
}

fn entails(question: &Question, leaves: &[Leaf]) -> Outcome {
    let mut allowed = leaves.iter().flat_map(|leaf| &leaf.allowed);
    if allowed.any(|allowed| !allowed.beside.met) {
        return not_entailed(question, 2, 0);
    }
    let mut numbers = 0..disequations(&question.second).len();
    let missed = |number: &usize| solved(question, leaves, |a| !a.beside.had[*number]);
    match numbers.find(missed) {
        Some(number) => not_entailed(question, 3, number),
        None => nothing_shown(true, 0),
    }
}

fn not_entailed(question: &Question, reason: u8, disequation: usize) -> Outcome {
    Outcome {
        yes: false,
        height: question.height_if_not_entailed(),
        reason,
        disequation,
    }
}
