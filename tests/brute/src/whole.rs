//! Route A: whole trees. Every assignment of folded trees up to a height is tried, by the definitions of
//! SPEC 2, with nothing decided leaf by leaf.

use crate::question::{disequations, positive, Clause, Question, Relation, Term};
use crate::tree::{splits, Tree};
use std::collections::HashMap;

/// The tallest trees that route A lists: 256 of them are no taller.
pub const TALLEST: u32 = 3;

/// All folded trees up to a height, the lower ones first, and their joins.
pub struct Trees {
    trees: Vec<Tree>,
    numbers: HashMap<Tree, usize>,
    joins: Vec<Option<usize>>,
}

impl Trees {
    pub fn new() -> Trees {
        let trees = all_trees(TALLEST);
        let mut numbers = HashMap::new();
        for (number, tree) in trees.iter().enumerate() {
            numbers.insert(tree.clone(), number);
        }
        let mut joins = Vec::new();
        for a in &trees {
            for b in &trees {
                joins.push(a.join(b).map(|joined| numbers[&joined]));
            }
        }
        Trees {
            trees,
            numbers,
            joins,
        }
    }

    fn join(&self, a: usize, b: usize) -> Option<usize> {
        self.joins[a * self.trees.len() + b]
    }

    pub fn number(&self, tree: &Tree) -> usize {
        self.numbers[tree]
    }
}

impl Default for Trees {
    fn default() -> Trees {
        Trees::new()
    }
}

/// All folded trees no taller than `height`: those no taller than one less, then the others.
pub fn all_trees(height: u32) -> Vec<Tree> {
    if height == 0 {
        return vec![Tree::Empty, Tree::Full];
    }
    let lower = all_trees(height - 1);
    let mut trees = lower.clone();
    for left in &lower {
        for right in &lower {
            let pair = Tree::pair(left.clone(), right.clone());
            if pair.height() == height {
                trees.push(pair);
            }
        }
    }
    trees
}

/// How many folded trees are no taller than `height`.
pub fn tree_count(height: u32) -> usize {
    1 << (1 << height)
}

/// The search for assignments: variables get their trees in order, and a clause is judged as soon as
/// the last of its variables has one.
struct Search<'a> {
    trees: &'a Trees,
    /// None for a constant that is taller than all of these trees: no clause names it.
    constants: Vec<Option<usize>>,
    clauses: Vec<Clause>,
    /// How many variables there are, and up to which height each is tried.
    heights: Vec<u32>,
}

impl Search<'_> {
    fn value(&self, term: Term, values: &[usize]) -> usize {
        match term {
            Term::Variable(v) => values[v],
            Term::Constant(c) => self.constants[c].expect("a constant that is named is low enough"),
        }
    }

    fn holds(&self, clause: &Clause, values: &[usize]) -> bool {
        let at = |term| self.value(term, values);
        let plain = match clause.relation {
            Relation::Join(a, b, c) => self.trees.join(at(a), at(b)) == Some(at(c)),
            Relation::Equal(a, b) => at(a) == at(b),
            Relation::Full(a) => self.trees.trees[at(a)] == Tree::Full,
            Relation::Empty(a) => self.trees.trees[at(a)] == Tree::Empty,
            Relation::Together(a, b) => self.trees.join(at(a), at(b)).is_some(),
        };
        plain != clause.negated
    }

    /// Whether the clauses hold whose last variable is the last one that has a tree.
    fn last_clauses_hold(&self, values: &[usize]) -> bool {
        self.clauses
            .iter()
            .filter(|clause| variables_needed(clause) == values.len())
            .all(|clause| self.holds(clause, values))
    }

    /// Goes on from some values; `found` is shown each assignment that meets all clauses and says
    /// whether to stop.
    fn go_on(&self, values: &mut Vec<usize>, found: &mut dyn FnMut(&[usize]) -> bool) -> bool {
        let next = values.len();
        if next == self.heights.len() {
            return found(values);
        }
        for tree in 0..tree_count(self.heights[next]) {
            values.push(tree);
            let stop = self.last_clauses_hold(values) && self.go_on(values, found);
            values.pop();
            if stop {
                return true;
            }
        }
        false
    }

    /// Goes on from given values, whose own clauses are judged first.
    fn from(&self, given: &[usize], found: &mut dyn FnMut(&[usize]) -> bool) -> bool {
        for count in 0..=given.len() {
            if !self.last_clauses_hold(&given[..count]) {
                return false;
            }
        }
        self.go_on(&mut given.to_vec(), found)
    }
}

/// How many variables must have trees before a clause can be judged.
fn variables_needed(clause: &Clause) -> usize {
    let needed = |term| match term {
        Term::Variable(v) => v + 1,
        Term::Constant(_) => 0,
    };
    clause.terms().into_iter().map(needed).max().unwrap_or(0)
}

fn search<'a>(
    trees: &'a Trees,
    question: &Question,
    clauses: Vec<Clause>,
    heights: Vec<u32>,
) -> Search<'a> {
    let constants = question.constants.iter();
    Search {
        trees,
        constants: constants.map(|c| trees.numbers.get(c).copied()).collect(),
        clauses,
        heights,
    }
}

/// Whether the first system has a solution no taller than `height`.
pub fn satisfiable(trees: &Trees, question: &Question, height: u32) -> bool {
    let heights = vec![height; question.free];
    search(trees, question, question.first.clone(), heights).from(&[], &mut |_| true)
}

/// All assignments to the free variables of trees no taller than `height` that meet these clauses.
pub fn assignments(
    trees: &Trees,
    question: &Question,
    clauses: Vec<Clause>,
    height: u32,
) -> Vec<Vec<Tree>> {
    let heights = vec![height; question.free];
    let mut all = Vec::new();
    search(trees, question, clauses, heights).from(&[], &mut |numbers| {
        let assignment = numbers.iter().map(|number| trees.trees[*number].clone());
        all.push(assignment.collect());
        false
    });
    all
}

/// What a solution of the first system cannot have beside it.
#[derive(Clone, Debug, PartialEq, Eq)]
pub struct Extension {
    /// Own trees meet all clauses of the second.
    pub extends: bool,
    /// Own trees meet the positive clauses of the second.
    pub met: bool,
    /// For each disequation: own trees meet it and the positive clauses.
    pub had: Vec<bool>,
}

/// Whether own trees no taller than `own_height` meet these clauses beside a solution, which is given as numbers of trees.
fn meet(
    trees: &Trees,
    question: &Question,
    clauses: Vec<Clause>,
    solution: &[usize],
    own_height: u32,
) -> bool {
    let mut heights = vec![own_height; question.variables()];
    heights[..question.free].fill(0);
    search(trees, question, clauses, heights).from(solution, &mut |_| true)
}

/// How a solution, as numbers of trees, extends with own trees no taller than `own_height`.
fn extension(trees: &Trees, question: &Question, solution: &[usize], own_height: u32) -> Extension {
    let some = |clauses| meet(trees, question, clauses, solution, own_height);
    let with = |disequation: Clause| {
        let mut clauses = positive(&question.second);
        clauses.push(disequation);
        some(clauses)
    };
    Extension {
        extends: some(question.second.clone()),
        met: some(positive(&question.second)),
        had: disequations(&question.second)
            .into_iter()
            .map(with)
            .collect(),
    }
}

/// The same for a solution given as trees.
pub fn extension_of_trees(
    trees: &Trees,
    question: &Question,
    solution: &[Tree],
    own_height: u32,
) -> Extension {
    let numbers: Vec<usize> = solution.iter().map(|tree| trees.number(tree)).collect();
    extension(trees, question, &numbers, own_height)
}

/// Whether own trees no taller than `own_height` extend a solution that is given as trees.
pub fn extends(trees: &Trees, question: &Question, solution: &[Tree], own_height: u32) -> bool {
    let numbers: Vec<usize> = solution.iter().map(|tree| trees.number(tree)).collect();
    let second = question.second.clone();
    meet(trees, question, second, &numbers, own_height)
}

/// What the solutions of the first system up to a height say of an entailment.
#[derive(Clone, Copy, Debug, PartialEq, Eq)]
pub struct Verdict {
    pub yes: bool,
    pub reason: u8,
    pub disequation: usize,
}

/// The entailment by its definition, over all solutions of the first system no taller than `height`
/// and own trees no taller than `own_height`.
pub fn entails(trees: &Trees, question: &Question, height: u32, own_height: u32) -> Verdict {
    let heights = vec![height; question.free];
    let first = search(trees, question, question.first.clone(), heights);
    let (mut solved, mut all_extend, mut all_met) = (false, true, true);
    let mut all_had = vec![true; disequations(&question.second).len()];
    first.from(&[], &mut |solution| {
        let one = extension(trees, question, solution, own_height);
        solved = true;
        all_extend &= one.extends;
        all_met &= one.met;
        for (all, had) in all_had.iter_mut().zip(&one.had) {
            *all &= had;
        }
        false
    });
    let (reason, disequation) = if !solved {
        (1, 0)
    } else if all_extend {
        (0, 0)
    } else if !all_met {
        (2, 0)
    } else {
        let lowest = all_had.iter().position(|had| !had);
        (3, lowest.expect("some disequation cannot be had"))
    };
    Verdict {
        yes: all_extend,
        reason,
        disequation,
    }
}

/// The height of own trees that is enough beside solutions no taller than `height`.
pub fn own_height(question: &Question, height: u32) -> u32 {
    height.max(question.height()) + splits(disequations(&question.second).len())
}
