//! What judging is to say of rows that someone hands over, by whole trees: each row is folded to a tree, clauses are tested by joins and equality of
//! trees, and own trees are searched one assignment after the other, as tall as it takes. Nothing is decided leaf by leaf.

use crate::handed::{Failing, Judgement, Way};
use crate::judge::{holds, trees_of_rows};
use crate::question::{disequations, Clause, Question, Relation, Term};
use crate::tree::{splits, Tree, ROW_HEIGHT};
use crate::whole::{extends, tree_count, Trees, TALLEST};

/// The most assignments of own trees that one case may have.
const MOST_ASSIGNMENTS: usize = 1 << 16;

/// The judgement, unless the search for own trees would be too long.
pub fn judged(trees: &Trees, question: &Question, rows: &[u8]) -> Option<Judgement> {
    let solution = trees_of_rows(question, rows);
    let broken = question
        .first
        .iter()
        .position(|clause| !holds(question, clause, &solution));
    if let Some(clause) = broken {
        let failing = failing(question, &question.first[clause], &solution);
        return Some(Judgement::Broken(clause, failing));
    }
    if !question.entailment {
        return Some(Judgement::Accepted);
    }
    match extended(trees, question, &solution)? {
        true => Some(Judgement::Extends),
        false => Some(Judgement::Accepted),
    }
}

/// The leftmost leaf of the rows at which a positive clause fails, and which way; of a disequation neither.
fn failing(question: &Question, clause: &Clause, solution: &[Tree]) -> Option<Failing> {
    let at = |term| match term {
        Term::Variable(v) => &solution[v],
        Term::Constant(c) => &question.constants[c],
    };
    let all = 1 << ROW_HEIGHT;
    match clause.relation {
        _ if clause.negated => None,
        Relation::Join(a, b, c) => leftmost([at(a), at(b)], Some(at(c)), 0, all),
        Relation::Equal(a, b) => leftmost([at(a), &Tree::Empty], Some(at(b)), 0, all),
        Relation::Full(a) => leftmost([at(a), &Tree::Empty], Some(&Tree::Full), 0, all),
        Relation::Empty(a) => leftmost([at(a), &Tree::Empty], Some(&Tree::Empty), 0, all),
        Relation::Together(a, b) => leftmost([at(a), at(b)], None, 0, all),
    }
}

/// The same of two parts and their sum, if it matters, which stand over so many leaves from this one on: of their left halves, then of their right halves, until all are leaves.
fn leftmost(parts: [&Tree; 2], sum: Option<&Tree>, first: usize, wide: usize) -> Option<Failing> {
    let fails = |way| Some(Failing { way, leaf: first });
    match (parts, sum) {
        ([Tree::Full, Tree::Full], _) => fails(Way::Overlap),
        ([Tree::Empty, Tree::Empty], Some(Tree::Full)) => fails(Way::Shortfall),
        ([Tree::Full, Tree::Empty] | [Tree::Empty, Tree::Full], Some(Tree::Empty)) => {
            fails(Way::Surplus)
        }
        ([Tree::Pair(..), _] | [_, Tree::Pair(..)], _) | (_, Some(Tree::Pair(..))) => {
            let half = |right: bool| {
                let parts = parts.map(|part| half_of(part, right));
                let sum = sum.map(|sum| half_of(sum, right));
                leftmost(parts, sum, first + usize::from(right) * wide / 2, wide / 2)
            };
            half(false).or_else(|| half(true))
        }
        _ => None,
    }
}

/// The left or the right half of a tree; those of a leaf are that leaf.
fn half_of(tree: &Tree, right: bool) -> &Tree {
    match tree {
        Tree::Pair(left, _) if !right => left,
        Tree::Pair(_, right) => right,
        leaf => leaf,
    }
}

/// Whether own trees extend a solution, unless there are too many to try. One height more than is enough is tried if it can be.
fn extended(trees: &Trees, question: &Question, solution: &[Tree]) -> Option<bool> {
    if question.own == 0 {
        let mut second = question.second.iter();
        return Some(second.all(|clause| holds(question, clause, solution)));
    }
    let height = own_height(question, solution);
    let assignments = |height: u32| tree_count(height).saturating_pow(question.own as u32);
    let can_try = |height: &u32| *height <= TALLEST && assignments(*height) <= MOST_ASSIGNMENTS;
    let tried = [height + 1, height].into_iter().find(can_try)?;
    Some(extends(trees, question, solution, tried))
}

/// The height of own trees that is enough: k the height of the solution, max(k, h) + c(e).
fn own_height(question: &Question, solution: &[Tree]) -> u32 {
    let tallest = solution.iter().map(Tree::height).max().unwrap_or(0);
    tallest.max(question.height()) + splits(disequations(&question.second).len())
}
