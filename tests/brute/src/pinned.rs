//! Questions in which each variable is held to one value at each leaf. How such a question was built tells its
//! answer and the solution shown, so its size costs nothing.

use crate::asking::Built;
use crate::draft::{self, leaf_mask, Draft, System, EMPTY, FULL};
use crate::judge::ROW_BYTES;
use crate::make::{random_leaves, shuffle};
use crate::question::{
    Relation, Term, MOST_CONSTANTS, MOST_DISEQUATIONS, MOST_POSITIVE, MOST_VARIABLES,
};
use crate::random::Random;
use crate::tree::{row_of_tree, tree_of_number};

#[derive(Clone, Copy, Debug, PartialEq, Eq)]
pub enum Verdict {
    /// Kind 0, yes.
    Satisfiable,
    /// Kind 0, no.
    Unsatisfiable,
    /// Kind 1, yes, reason 0.
    Entailed,
    /// Kind 1, yes, reason 1.
    Vacuous,
    /// Kind 1, no, reason 2.
    Unmet,
    /// Kind 1, no, reason 3.
    Missed,
}

pub const VERDICTS: [Verdict; 6] = [
    Verdict::Satisfiable,
    Verdict::Unsatisfiable,
    Verdict::Entailed,
    Verdict::Vacuous,
    Verdict::Unmet,
    Verdict::Missed,
];

impl Verdict {
    pub fn is_entailment(self) -> bool {
        !matches!(self, Verdict::Satisfiable | Verdict::Unsatisfiable)
    }
}

/// How many constants there are at most after the pins, and after the clauses that fill a system up: room is left for
/// one that decides, and for some that no clause names.
const WITH_PINS: usize = 24;
const WITH_FILLING: usize = 28;

/// What is to be built.
pub struct Wanted {
    pub verdict: Verdict,
    pub height: u32,
    /// The leaf, at that height, where one clause decides.
    pub leaf: usize,
    /// The only values there that meet the pins.
    pub free: Vec<bool>,
    pub own: Vec<bool>,
}

struct Builder<'a> {
    random: &'a mut Random,
    draft: Draft,
    /// The value of each variable.
    values: Vec<u32>,
    /// The leaf that decides.
    leaf: u32,
    height: u32,
    /// Permission policies are among the clauses.
    policies: bool,
}

pub fn pinned(random: &mut Random, wanted: &Wanted) -> Built {
    let leaf = leaf_mask(wanted.height, wanted.leaf);
    let elsewhere = random.once_in(2);
    let values = wanted.free.iter().chain(&wanted.own).map(|full| {
        let other = if elsewhere {
            random_leaves(random, wanted.height)
        } else {
            EMPTY
        };
        (other & !leaf) | if *full { leaf } else { EMPTY }
    });
    let values = values.collect();
    let mut builder = Builder {
        policies: random.once_in(2),
        random,
        draft: Draft::new(wanted.free.len(), wanted.own.len()),
        values,
        leaf,
        height: wanted.height,
    };
    builder.pins();
    builder.decide(wanted.verdict);
    builder.name_leaf();
    builder.fill(wanted.verdict, System::First);
    if wanted.verdict.is_entailment() {
        builder.fill(wanted.verdict, System::Second);
    }
    builder.finish(wanted.verdict)
}

impl Builder<'_> {
    fn value(&self, term: Term) -> u32 {
        match term {
            Term::Variable(v) => self.values[v],
            Term::Constant(c) => self.draft.constants[c],
        }
    }

    /// The leaves at which a relation fails.
    fn failing(&self, relation: Relation) -> u32 {
        let at = |term| self.value(term);
        match relation {
            Relation::Join(a, b, c) => (at(a) & at(b)) | ((at(a) | at(b)) ^ at(c)),
            Relation::Equal(a, b) => at(a) ^ at(b),
            Relation::Full(a) => !at(a),
            Relation::Empty(a) => at(a),
            Relation::Together(a, b) => at(a) & at(b),
        }
    }

    /// Holds each variable to its value: by a constant, or by variables that are held already.
    fn pins(&mut self) {
        for leaves in [EMPTY, FULL, self.leaf] {
            self.draft.constant(leaves);
        }
        let mut order: Vec<usize> = (0..self.draft.free).collect();
        shuffle(self.random, &mut order);
        let mut own: Vec<usize> = (self.draft.free..self.draft.variables()).collect();
        shuffle(self.random, &mut own);
        order.extend(own);
        for at in 0..order.len() {
            let relation = self.pin(order[at], &order[..at]);
            self.draft.home(order[at]).positive.push(relation);
        }
    }

    fn pin(&mut self, variable: usize, held: &[usize]) -> Relation {
        let (value, v) = (self.values[variable], Term::Variable(variable));
        if let (Some(relation), true) = (self.by_others(variable, held), self.random.once_in(2)) {
            return relation;
        }
        let constant = self.draft.constant(value);
        let (empty, full) = (self.draft.constant(EMPTY), self.draft.constant(FULL));
        let other = self.draft.constant_within(!value, WITH_PINS);
        match (self.random.below(6), other) {
            (0, _) => Relation::Equal(constant, v),
            (1, _) => Relation::Join(v, empty, constant),
            (2, _) => Relation::Join(empty, v, constant),
            (3, Some(other)) => Relation::Join(v, other, full),
            (4, _) if self.policies && value == FULL => Relation::Full(v),
            _ => Relation::Equal(v, constant),
        }
    }

    /// A relation that leaves a variable no other value, given those that are held.
    fn by_others(&mut self, variable: usize, held: &[usize]) -> Option<Relation> {
        if held.is_empty() {
            return None;
        }
        let (a, b) = (self.random.pick(held), self.random.pick(held));
        let terms = [a, b, variable].map(Term::Variable);
        let relations = [
            Relation::Equal(terms[0], terms[2]),
            Relation::Join(terms[0], terms[1], terms[2]),
            Relation::Join(terms[0], terms[2], terms[1]),
        ];
        relations.into_iter().find(|r| self.failing(*r) == 0)
    }

    /// A term that a clause of this system may name: mostly a variable, and in the second often an own one.
    fn term(&mut self, system: System) -> Term {
        let (free, own) = (self.draft.free, self.draft.own);
        if system == System::Second && own > 0 && self.random.once_in(2) {
            return Term::Variable(free + self.random.below(own));
        }
        if free > 0 && !self.random.once_in(4) {
            return Term::Variable(self.random.below(free));
        }
        Term::Constant(self.random.below(self.draft.constants.len()))
    }

    /// A relation for a clause of this system that fails at just these leaves, perhaps with a constant made for it.
    fn measured(
        &mut self,
        (system, negated): (System, bool),
        leaves: u32,
        most: usize,
    ) -> Option<Relation> {
        let (a, b, c) = (self.term(system), self.term(system), self.term(system));
        let (va, vb) = (self.value(a), self.value(b));
        let mut made = |leaves| self.draft.constant_within(leaves, most);
        let sorts = if self.policies { 11 } else { 7 };
        let relation = match (self.random.below(sorts), negated) {
            (0, _) => Relation::Equal(a, made(va ^ leaves)?),
            (1, _) => Relation::Equal(made(va ^ leaves)?, a),
            (2, _) => Relation::Equal(a, b),
            (3, _) => Relation::Join(a, b, made((va | vb) ^ leaves)?),
            (4, _) => Relation::Join(a, made((vb & !va) ^ leaves)?, b),
            (5, _) => Relation::Join(made((vb & !va) ^ leaves)?, a, b),
            (6, _) => Relation::Join(a, b, c),
            (7, false) => Relation::Full(a),
            (8, false) => Relation::Full(made(!leaves)?),
            (9, false) => Relation::Together(a, b),
            (_, false) => Relation::Together(a, made(leaves | !va)?),
            (7 | 8, true) => Relation::Empty(a),
            (_, true) => Relation::Empty(made(leaves)?),
        };
        (self.failing(relation) == leaves).then_some(relation)
    }

    /// Such a relation in any case: at worst one between the empty share and a constant.
    fn relation(&mut self, clause: (System, bool), leaves: u32, most: usize) -> Relation {
        for _ in 0..100 {
            if let Some(relation) = self.measured(clause, leaves, most) {
                return relation;
            }
        }
        let leaves = if leaves == 0 { EMPTY } else { self.leaf };
        Relation::Equal(self.draft.constant(EMPTY), self.draft.constant(leaves))
    }

    /// Puts in the clause that decides.
    fn decide(&mut self, verdict: Verdict) {
        let (system, negated, leaves) = match verdict {
            Verdict::Satisfiable => (System::First, true, self.leaf),
            Verdict::Entailed => (System::Second, true, self.leaf),
            Verdict::Unmet => (System::Second, false, self.leaf),
            Verdict::Missed => (System::Second, true, 0),
            Verdict::Unsatisfiable | Verdict::Vacuous => match self.random.once_in(2) {
                true => (System::First, false, self.leaf),
                false => (System::First, true, 0),
            },
        };
        let relation = self.relation((system, negated), leaves, MOST_CONSTANTS);
        let clauses = self.draft.system(system);
        match negated {
            true => clauses.disequations.push(relation),
            false => clauses.positive.push(relation),
        }
    }

    /// Has a clause of the first system name the constant of the leaf that decides, if none does so far: the question has its height.
    fn name_leaf(&mut self) {
        let leaf = self.draft.constant(self.leaf);
        let names = |clauses: &Vec<Relation>| clauses.iter().any(|r| r.terms().contains(&leaf));
        let systems = [&self.draft.first, &self.draft.second];
        if !systems
            .iter()
            .any(|s| names(&s.positive) || names(&s.disequations))
        {
            let itself = Relation::Equal(leaf, leaf);
            self.draft.first.positive.push(itself);
        }
    }

    /// Fills a system up with clauses that hold, and mixes the order. In the second system they may fail where
    /// that changes nothing: if the first has no solution, and disequations behind one that cannot be had.
    fn fill(&mut self, verdict: Verdict, system: System) {
        let (positive, disequations) = (self.some(MOST_POSITIVE), self.some(MOST_DISEQUATIONS));
        let second = system == System::Second && self.random.once_in(2);
        while self.draft.system(system).positive.len() < positive {
            let fails = second && verdict == Verdict::Vacuous;
            let leaves = if fails { self.some_leaves() } else { 0 };
            let relation = self.relation((system, false), leaves, WITH_FILLING);
            self.draft.system(system).positive.push(relation);
        }
        while self.draft.system(system).disequations.len() < disequations {
            let fails = second && matches!(verdict, Verdict::Vacuous | Verdict::Missed);
            let leaves = match fails && self.random.once_in(2) {
                true => 0,
                false => self.some_leaves(),
            };
            let relation = self.relation((system, true), leaves, WITH_FILLING);
            self.draft.system(system).disequations.push(relation);
        }
        let clauses = self.draft.system(system);
        shuffle(self.random, &mut clauses.positive);
        shuffle(self.random, &mut clauses.disequations);
    }

    /// Some leaves, one at least.
    fn some_leaves(&mut self) -> u32 {
        match random_leaves(self.random, self.height) {
            0 => self.leaf,
            leaves => leaves,
        }
    }

    /// A number up to `most`, often just that.
    fn some(&mut self, most: usize) -> usize {
        if self.random.once_in(4) {
            return most;
        }
        self.random.below(most + 1)
    }

    fn finish(self, verdict: Verdict) -> Built {
        let mut disequations = self.draft.second.disequations.iter();
        let lowest = disequations.position(|r| self.failing(*r) == 0);
        let rows = self.rows();
        let question = self.draft.finish(self.random, verdict.is_entailment());
        let mut built = match verdict {
            Verdict::Satisfiable => draft::satisfiable(question, true),
            Verdict::Unsatisfiable => draft::satisfiable(question, false),
            Verdict::Entailed => draft::entailment(question, 0, 0),
            Verdict::Vacuous => draft::entailment(question, 1, 0),
            Verdict::Unmet => draft::entailment(question, 2, 0),
            Verdict::Missed => draft::entailment(question, 3, lowest.expect("it was put in")),
        };
        if built.outcome.shows(&built.question) {
            built.rows = Some(rows);
        }
        built
    }

    fn rows(&self) -> Vec<u8> {
        let mut rows = Vec::new();
        for value in &self.values[..self.draft.free] {
            rows.extend(row_of_tree(&tree_of_number(*value)));
        }
        rows.resize(MOST_VARIABLES * ROW_BYTES, 0);
        rows
    }
}
