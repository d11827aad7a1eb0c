//! Judges shown rows: whether they solve the first system, are no taller than the height given and, for
//! a no, do not extend, for the reason given. It does not ask how they were found.

use crate::question::{split, Clause, Question, Relation, Term, MOST_VARIABLES};
use crate::single::{beside, constants_by_leaf, Beside, Outcome};
use crate::tree::{tree_of_row, Tree};
use crate::whole::Extension;
use std::collections::HashMap;

pub const ROW_BYTES: usize = 128;
pub const ANSWER_BYTES: usize = MOST_VARIABLES * ROW_BYTES;

/// What is wrong with shown rows.
#[derive(Clone, Copy, Debug, PartialEq, Eq)]
pub enum Flaw {
    /// The row of an own or absent variable has a bit set.
    ForeignRow(usize),
    /// This variable's tree is taller than the height given.
    TooTall(usize),
    /// This clause of the first system does not hold.
    Broken(usize),
    /// The rows extend, or do not extend for another reason than the one given.
    WrongReason,
}

/// The trees of the free variables.
pub fn trees_of_rows(question: &Question, rows: &[u8]) -> Vec<Tree> {
    rows.chunks(ROW_BYTES)
        .take(question.free)
        .map(tree_of_row)
        .collect()
}

/// Whether a clause holds of whole trees.
pub fn holds(question: &Question, clause: &Clause, trees: &[Tree]) -> bool {
    let at = |term| match term {
        Term::Variable(v) => &trees[v],
        Term::Constant(c) => &question.constants[c],
    };
    let plain = match clause.relation {
        Relation::Join(a, b, c) => at(a).join(at(b)).as_ref() == Some(at(c)),
        Relation::Equal(a, b) => at(a) == at(b),
        Relation::Full(a) => *at(a) == Tree::Full,
        Relation::Empty(a) => *at(a) == Tree::Empty,
        Relation::Together(a, b) => at(a).join(at(b)).is_some(),
    };
    plain != clause.negated
}

/// How a solution of the first system extends, leaf by leaf. With k its height, own values are tried
/// at each leaf of height max(k, h). Below each of these 2^c(e) sub-leaves have room for a disequation
/// each, so own trees of height max(k, h) + c(e) meet all that can be met one by one.
pub fn extension_by_leaf(question: &Question, trees: &[Tree]) -> Extension {
    let tallest = trees.iter().map(Tree::height).max().unwrap_or(0);
    let height = tallest.max(question.height());
    let unfolded: Vec<Vec<bool>> = trees.iter().map(|tree| tree.leaves(height)).collect();
    let mut seen: HashMap<(Vec<bool>, Vec<bool>), Beside> = HashMap::new();
    let second = split(&question.second);
    let mut met = true;
    let mut had = vec![false; second.disequations.len()];
    for (leaf, constants) in constants_by_leaf(question, height).into_iter().enumerate() {
        let choice: Vec<bool> = unfolded.iter().map(|leaves| leaves[leaf]).collect();
        let here = seen
            .entry((choice, constants))
            .or_insert_with_key(|(choice, constants)| {
                beside(&second, question.own, choice, constants)
            });
        met &= here.met;
        for (had, here) in had.iter_mut().zip(&here.had) {
            *had |= here;
        }
    }
    for one in &mut had {
        *one &= met;
    }
    Extension {
        extends: met && had.iter().all(|one| *one),
        met,
        had,
    }
}

/// Whether a solution fails to extend for the reason that the outcome gives.
pub fn fails_for_reason(outcome: &Outcome, extension: &Extension) -> bool {
    match outcome.reason {
        2 => !extension.met,
        3 => extension.met && extension.had.get(outcome.disequation) == Some(&false),
        _ => false,
    }
}

/// The judgement of 12 rows of 128 bytes that were shown with this outcome.
pub fn judge(question: &Question, outcome: &Outcome, rows: &[u8]) -> Result<(), Flaw> {
    for (variable, row) in rows.chunks(ROW_BYTES).enumerate().skip(question.free) {
        if row.iter().any(|byte| *byte != 0) {
            return Err(Flaw::ForeignRow(variable));
        }
    }
    let trees = trees_of_rows(question, rows);
    if let Some(tall) = trees.iter().position(|t| t.height() > outcome.height) {
        return Err(Flaw::TooTall(tall));
    }
    let broken = question
        .first
        .iter()
        .position(|clause| !holds(question, clause, &trees));
    if let Some(clause) = broken {
        return Err(Flaw::Broken(clause));
    }
    if question.entailment && !fails_for_reason(outcome, &extension_by_leaf(question, &trees)) {
        return Err(Flaw::WrongReason);
    }
    Ok(())
}
