//! Makes questions round a hidden solution, and entailments that hold, with one change.

use crate::asking::Built;
use crate::draft;
use crate::make::{random_clause, random_leaves, shuffle, Counts, ALL_CLAUSES};
use crate::question::{
    disequations, positive, Clause, Question, Relation, Term, MOST_CONSTANTS, MOST_DISEQUATIONS,
    MOST_POSITIVE, MOST_VARIABLES,
};
use crate::random::Random;
use crate::tree::{tree_of_number, Tree, CONSTANT_HEIGHT};

/// Hidden values, as leaves at height 5, round which clauses are made that hold.
struct Hidden {
    variables: Vec<u32>,
    constants: Vec<u32>,
}

impl Hidden {
    /// The first constant is empty, the second one leaf of the height wanted. With permission policies some variables are full.
    fn new(
        random: &mut Random,
        (variables, constants): (usize, usize),
        height: u32,
        policies: bool,
    ) -> Hidden {
        let leaf = u32::MAX >> (32 - (32 >> height));
        let mut hidden = Hidden {
            variables: Vec::new(),
            constants: [0, leaf].into_iter().take(constants).collect(),
        };
        while hidden.constants.len() < constants {
            let value = hidden.next_value(random, height);
            hidden.constants.push(value);
        }
        for _ in 0..variables {
            let value = match policies && random.once_in(6) {
                true => u32::MAX,
                false => hidden.next_value(random, height),
            };
            hidden.variables.push(value);
        }
        hidden
    }

    /// A new value, often in some relation to the values so far.
    fn next_value(&self, random: &mut Random, height: u32) -> u32 {
        let fresh = random_leaves(random, height);
        let sofar: Vec<u32> = self.values();
        let (a, b) = (random.pick(&sofar), random.pick(&sofar));
        match random.below(6) {
            0 => a | b,
            1 => a & fresh,
            2 => b & !a,
            3 => !a,
            _ => fresh,
        }
    }

    fn values(&self) -> Vec<u32> {
        self.terms().into_iter().map(|t| self.value(t)).collect()
    }

    fn terms(&self) -> Vec<Term> {
        let variables = (0..self.variables.len()).map(Term::Variable);
        let constants = (0..self.constants.len()).map(Term::Constant);
        variables.chain(constants).collect()
    }

    fn value(&self, term: Term) -> u32 {
        match term {
            Term::Variable(v) => self.variables[v],
            Term::Constant(c) => self.constants[c],
        }
    }

    fn holds(&self, relation: Relation) -> bool {
        match relation {
            Relation::Join(a, b, c) => {
                let (a, b) = (self.value(a), self.value(b));
                a & b == 0 && a | b == self.value(c)
            }
            Relation::Equal(a, b) => self.value(a) == self.value(b),
            Relation::Full(a) => self.value(a) == u32::MAX,
            Relation::Empty(a) => self.value(a) == 0,
            Relation::Together(a, b) => self.value(a) & self.value(b) == 0,
        }
    }

    /// All joins and equalities between terms that hold.
    fn relations(&self) -> Vec<Relation> {
        let terms = self.terms();
        let mut found = Vec::new();
        for &a in &terms {
            for &b in &terms {
                found.push(Relation::Equal(a, b));
                found.extend(terms.iter().map(|&c| Relation::Join(a, b, c)));
            }
        }
        found.retain(|relation| self.holds(*relation));
        found
    }

    /// All terms that are full and all pairs that may be held together, if there are any of either.
    fn policies(&self) -> Vec<Vec<Relation>> {
        let terms = self.terms();
        let pairs = terms.iter().flat_map(|a| terms.iter().map(|b| (*a, *b)));
        let full: Vec<Relation> = terms.iter().map(|a| Relation::Full(*a)).collect();
        let together: Vec<Relation> = pairs.map(|(a, b)| Relation::Together(a, b)).collect();
        let mut found = vec![full, together];
        for sort in &mut found {
            sort.retain(|relation| self.holds(*relation));
        }
        found.retain(|sort| !sort.is_empty());
        found
    }

    /// A negated clause that holds.
    fn disequation(&self, random: &mut Random, policies: bool) -> Option<Clause> {
        let terms = (self.variables.len(), self.constants.len());
        (0..300)
            .filter_map(|_| random_clause(random, terms, true, policies))
            .find(|clause| !self.holds(clause.relation))
    }

    /// A system that the hidden values solve. Once in three a positive clause is of a permission policy, if there are to be any.
    fn system(&self, random: &mut Random, counts: Counts) -> Vec<Clause> {
        let (relations, policies) = (self.relations(), self.policies());
        let mut clauses = Vec::new();
        for _ in 0..counts.positive {
            let among = match counts.policies && random.once_in(3) {
                true => &policies[random.below(policies.len())],
                false => &relations,
            };
            let relation = random.pick(among);
            clauses.push(Clause {
                relation,
                negated: false,
            });
        }
        for _ in 0..counts.disequations {
            clauses.extend(self.disequation(random, counts.policies));
        }
        shuffle(random, &mut clauses);
        clauses
    }

    fn constant_trees(&self) -> Vec<Tree> {
        self.constants.iter().map(|c| tree_of_number(*c)).collect()
    }
}

/// A satisfiable question of kind 0, with so many variables and clauses.
pub fn hidden_question(
    random: &mut Random,
    free: usize,
    constants: usize,
    height: u32,
    counts: Counts,
) -> Question {
    let hidden = Hidden::new(random, (free, constants), height, counts.policies);
    Question {
        entailment: false,
        free,
        own: 0,
        first: hidden.system(random, counts),
        second: Vec::new(),
        constants: hidden.constant_trees(),
    }
}

/// What is changed in an entailment that holds.
#[derive(Clone, Copy, Debug, PartialEq, Eq)]
pub enum Change {
    /// Nothing: the answer is yes with reason 0.
    None,
    /// A clause more in the first system that mostly leaves it without a solution.
    First,
    /// A positive clause more in the second.
    Positive,
    /// A disequation more in the second.
    Disequation,
}

pub const CHANGES: [Change; 4] = [
    Change::None,
    Change::First,
    Change::Positive,
    Change::Disequation,
];

/// A clause with some free variables replaced by the own variables that stand for them.
fn renamed(clause: Clause, random: &mut Random, free: usize, stands_for: &[usize]) -> Clause {
    let rename = |term| match term {
        Term::Variable(v) => {
            let own = stands_for.iter().position(|w| *w == v);
            match own.filter(|_| !random.once_in(4)) {
                Some(own) => Term::Variable(free + own),
                None => term,
            }
        }
        Term::Constant(_) => term,
    };
    Clause {
        relation: clause.relation.with(rename),
        ..clause
    }
}

/// An entailment that holds, with one change. The first system has a hidden solution; the second's
/// clauses are the first's, with own variables in the place of free ones.
pub fn entailment(
    random: &mut Random,
    (free, own): (usize, usize),
    (constants, height): (usize, u32),
    (first, second): (Counts, Counts),
    change: Change,
) -> Question {
    let mut question = hidden_question(random, free, constants, height, first);
    question.entailment = true;
    question.own = own;
    let stands_for: Vec<usize> = (0..own).map(|_| random.below(free.max(1))).collect();
    for (negated, count) in [(false, second.positive), (true, second.disequations)] {
        let mut sources = question.first.clone();
        sources.retain(|clause| clause.negated == negated);
        for _ in 0..if sources.is_empty() { 0 } else { count } {
            let source = random.pick(&sources);
            let clause = renamed(source, random, free, &stands_for);
            question.second.push(clause);
        }
    }
    shuffle(random, &mut question.second);
    apply(random, &mut question, change, second.policies);
    question
}

fn apply(random: &mut Random, question: &mut Question, change: Change, policies: bool) {
    let constants = question.constants.len();
    let (system, variables, negated) = match change {
        Change::None => return,
        Change::First => {
            let negated = random.once_in(3);
            (&mut question.first, question.free, negated)
        }
        Change::Positive => (&mut question.second, question.free + question.own, false),
        Change::Disequation => (&mut question.second, question.free + question.own, true),
    };
    let clause = random_clause(random, (variables, constants), negated, policies);
    let at = random.below(system.len() + 1);
    let most = if negated {
        MOST_DISEQUATIONS
    } else {
        MOST_POSITIVE
    };
    if system.iter().filter(|c| c.negated == negated).count() < most {
        system.splice(at..at, clause);
    }
}

/// A question with 12 variables, 32 constants, height 5, and as many clauses as the format allows.
pub fn largest(random: &mut Random, own: usize, change: Change, policies: bool) -> Question {
    largest_built(random, own, change, policies).question
}

/// The same with its answer. It is made again until some clause names a constant of height 5.
pub fn largest_built(random: &mut Random, own: usize, change: Change, policies: bool) -> Built {
    loop {
        let built = of_any_height(random, own, change, policies);
        if built.question.height() == CONSTANT_HEIGHT {
            return built;
        }
    }
}

/// An entailment that holds lacks one clause, and the one that is put in decides:
/// - `First`: the negation of a clause of the first, which has no solution then;
/// - `Positive`: what a disequation of the first denies, which no solution can meet;
/// - `Disequation`: the negation of a positive clause of the first, which no solution can have.
fn of_any_height(random: &mut Random, own: usize, change: Change, policies: bool) -> Built {
    let from_positive = match change {
        Change::First => random.once_in(2),
        _ => change == Change::Disequation,
    };
    let all = Counts {
        policies,
        ..ALL_CLAUSES
    };
    let (mut first, mut second) = (all, all);
    match (change, from_positive) {
        (Change::None, _) => {}
        (Change::First, true) => first.disequations -= 1,
        (Change::First, false) => first.positive -= 1,
        (Change::Positive, _) => second.positive -= 1,
        (Change::Disequation, _) => second.disequations -= 1,
    }
    let variables = (MOST_VARIABLES - own, own);
    let constants = (MOST_CONSTANTS, CONSTANT_HEIGHT);
    let question = entailment(random, variables, constants, (first, second), Change::None);
    if change == Change::None {
        return draft::entailment(question, 0, 0);
    }
    let sources = match from_positive {
        true => positive(&question.first),
        false => disequations(&question.first),
    };
    let negations: Vec<Clause> = sources.iter().filter_map(Clause::negation).collect();
    let clause = random.pick(&negations);
    put_in(random, question, change, clause)
}

/// Puts the clause that decides into its system, often as its last.
fn put_in(random: &mut Random, mut question: Question, change: Change, clause: Clause) -> Built {
    let system = match change {
        Change::First => &mut question.first,
        _ => &mut question.second,
    };
    let at = match random.once_in(2) {
        true => system.len(),
        false => random.below(system.len() + 1),
    };
    system.insert(at, clause);
    match change {
        Change::Positive => draft::entailment(question, 2, 0),
        Change::Disequation => {
            let number = disequations(&question.second[..at]).len();
            draft::entailment(question, 3, number)
        }
        _ => draft::entailment(question, 1, 0),
    }
}
