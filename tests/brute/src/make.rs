//! Makes random trees, clauses and questions.

pub use crate::hidden::{entailment, hidden_question, largest, Change, CHANGES};
use crate::question::{Clause, Question, Relation, Term, MOST_DISEQUATIONS, MOST_POSITIVE};
use crate::random::Random;
use crate::tree::{row_of_tree, tree_of_number, Tree};

/// How large a question is at most.
#[derive(Clone, Copy, Debug)]
pub struct Size {
    pub free: usize,
    pub own: usize,
    pub constants: usize,
    pub height: u32,
    pub positive: usize,
    pub disequations: usize,
    /// Whether permission policies are among the clauses.
    pub policies: bool,
}

/// The numbers of clauses of a system that is made.
#[derive(Clone, Copy, Debug)]
pub struct Counts {
    pub positive: usize,
    pub disequations: usize,
    /// Whether permission policies are among them.
    pub policies: bool,
}

/// All that the format allows.
pub const ALL_CLAUSES: Counts = Counts {
    positive: MOST_POSITIVE,
    disequations: MOST_DISEQUATIONS,
    policies: true,
};

/// Leaves as a number: the low 2^`height` of these bits, unfolded to height 5.
pub fn unfolded_bits(bits: u64, height: u32) -> u32 {
    let times = 32 >> height;
    let mut leaves = 0;
    for leaf in 0..32 {
        leaves |= (((bits >> (leaf / times)) % 2) as u32) << leaf;
    }
    leaves
}

/// Leaves as a number, unfolded to height 5, of a tree no taller than `height`.
pub fn random_leaves(random: &mut Random, height: u32) -> u32 {
    let height = random.below(height as usize + 1) as u32;
    let bits = match random.below(4) {
        0 => random.number(),
        1 => random.number() & random.number(),
        2 => random.number() | random.number(),
        _ => 1 << random.below(32),
    };
    unfolded_bits(bits, height)
}

pub fn random_tree(random: &mut Random, height: u32) -> Tree {
    tree_of_number(random_leaves(random, height))
}

fn random_constants(random: &mut Random, size: &Size) -> Vec<Tree> {
    let count = random.below(size.constants + 1);
    (0..count)
        .map(|_| random_tree(random, size.height))
        .collect()
}

fn random_counts(random: &mut Random, size: &Size) -> Counts {
    Counts {
        positive: random.below(size.positive + 1),
        disequations: random.below(size.disequations + 1),
        policies: size.policies,
    }
}

pub fn random_term(random: &mut Random, variables: usize, constants: usize) -> Option<Term> {
    if variables + constants == 0 {
        return None;
    }
    let prefer_constant = random.once_in(4);
    if variables == 0 || (constants > 0 && prefer_constant) {
        return Some(Term::Constant(random.below(constants)));
    }
    Some(Term::Variable(random.below(variables)))
}

/// A clause of any sort; once in three it is of a permission policy, if there are to be any.
pub fn random_clause(
    random: &mut Random,
    (variables, constants): (usize, usize),
    negated: bool,
    policies: bool,
) -> Option<Clause> {
    let mut term = || random_term(random, variables, constants);
    let (a, b, c) = (term()?, term()?, term()?);
    let relation = if policies && random.once_in(3) {
        random.pick(&of_policies(a, b, negated))
    } else if random.once_in(3) {
        Relation::Equal(a, b)
    } else {
        Relation::Join(a, b, c)
    };
    Some(Clause { relation, negated })
}

/// What permission policies say of these terms, as positive clauses or as disequations.
fn of_policies(a: Term, b: Term, negated: bool) -> Vec<Relation> {
    let mut relations = vec![
        Relation::Full(a),
        Relation::Empty(a),
        Relation::Together(a, b),
    ];
    relations.retain(|relation| relation.fits(negated));
    relations
}

pub fn random_system(
    random: &mut Random,
    variables: usize,
    constants: usize,
    counts: Counts,
) -> Vec<Clause> {
    let mut clauses = Vec::new();
    for number in 0..counts.positive + counts.disequations {
        let negated = number >= counts.positive;
        let clause = random_clause(random, (variables, constants), negated, counts.policies);
        clauses.extend(clause);
    }
    shuffle(random, &mut clauses);
    clauses
}

pub fn shuffle<T>(random: &mut Random, items: &mut [T]) {
    for last in (1..items.len()).rev() {
        items.swap(last, random.below(last + 1));
    }
}

/// Any question of that size.
pub fn random_question(random: &mut Random, size: &Size) -> Question {
    let entailment = random.once_in(2);
    let free = random.below(size.free + 1);
    let own = if entailment {
        random.below(size.own + 1)
    } else {
        0
    };
    let constants = random_constants(random, size);
    let (first, second) = (random_counts(random, size), random_counts(random, size));
    let count = constants.len();
    Question {
        entailment,
        free,
        own,
        first: random_system(random, free, count, first),
        second: if entailment {
            random_system(random, free + own, count, second)
        } else {
            Vec::new()
        },
        constants,
    }
}

/// A question whose disequations all meet at one leaf: below a constant with a single full leaf stand
/// shares that are not empty. It needs the height given, or nearly. Once in a while the last disequation
/// is the negation of a positive clause.
pub fn crowded(random: &mut Random, entailment: bool, disequations: usize) -> Question {
    let free = random.between(1, 4);
    let leaf = 1_u32 << random.below(32);
    let clause = |relation, negated| Clause { relation, negated };
    let small = |v| Relation::Join(Term::Variable(v), Term::Variable(0), Term::Constant(1));
    let mut first: Vec<Clause> = (1..free).map(|v| clause(small(v), false)).collect();
    for _ in 0..disequations {
        let v = Term::Variable(random.below(free));
        let relation = match random.below(3) {
            2 => Relation::Empty(v),
            other => Relation::Equal(v, Term::Constant(other)),
        };
        first.push(clause(relation, true));
    }
    if free > 1 && random.once_in(8) {
        first.pop();
        first.push(clause(small(1), true));
    }
    let own = if entailment { random.below(3) } else { 0 };
    let counts = Counts {
        positive: random.below(3),
        disequations: random.below(3),
        policies: true,
    };
    let second = if entailment {
        random_system(random, free + own, 2, counts)
    } else {
        Vec::new()
    };
    Question {
        entailment,
        free,
        own,
        constants: vec![Tree::Empty, tree_of_number(leaf)],
        first,
        second,
    }
}

/// A row with random leaves at this height.
pub fn random_row(random: &mut Random, height: u32) -> Vec<u8> {
    let leaves: Vec<bool> = (0..1 << height).map(|_| random.once_in(2)).collect();
    row_of_tree(&Tree::from_leaves(&leaves))
}
