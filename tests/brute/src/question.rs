//! Questions, and the reader of their byte format.

use crate::tree::{bytes_of_leaves, splits, tree_of_row, Tree, CONSTANT_HEIGHT};
use std::mem::discriminant;

pub const MOST_VARIABLES: usize = 12;
pub const MOST_CONSTANTS: usize = 32;
pub const MOST_POSITIVE: usize = 64;
pub const MOST_DISEQUATIONS: usize = 31;

#[derive(Clone, Copy, Debug, PartialEq, Eq)]
pub enum Term {
    Variable(usize),
    Constant(usize),
}

#[derive(Clone, Copy, Debug, PartialEq, Eq)]
pub enum Relation {
    Join(Term, Term, Term),
    Equal(Term, Term),
    /// The share is full: it may write.
    Full(Term),
    /// The share is empty. The format has only the negation: it may read.
    Empty(Term),
    /// The join of the two is defined: they may be held together.
    Together(Term, Term),
}

#[derive(Clone, Copy, Debug, PartialEq, Eq)]
pub struct Clause {
    pub relation: Relation,
    pub negated: bool,
}

/// Free variables come first, then the own ones.
#[derive(Clone, Debug, Default, PartialEq, Eq)]
pub struct Question {
    pub entailment: bool,
    pub free: usize,
    pub own: usize,
    pub constants: Vec<Tree>,
    pub first: Vec<Clause>,
    pub second: Vec<Clause>,
}

#[derive(Clone, Copy, Debug, PartialEq, Eq)]
pub struct Refusal {
    pub number: u8,
    pub place: usize,
}

impl Relation {
    pub fn terms(self) -> Vec<Term> {
        match self {
            Relation::Join(a, b, c) => vec![a, b, c],
            Relation::Equal(a, b) | Relation::Together(a, b) => vec![a, b],
            Relation::Full(a) | Relation::Empty(a) => vec![a],
        }
    }

    /// The same of other terms: each is changed, in order.
    pub fn with(self, mut change: impl FnMut(Term) -> Term) -> Relation {
        match self {
            Relation::Join(a, b, c) => Relation::Join(change(a), change(b), change(c)),
            Relation::Equal(a, b) => Relation::Equal(change(a), change(b)),
            Relation::Full(a) => Relation::Full(change(a)),
            Relation::Empty(a) => Relation::Empty(change(a)),
            Relation::Together(a, b) => Relation::Together(change(a), change(b)),
        }
    }

    /// Whether it is of a permission policy.
    pub fn is_policy(self) -> bool {
        !matches!(self, Relation::Join(..) | Relation::Equal(..))
    }

    /// How the format says this, or its negation, if it does.
    pub fn sort(self, negated: bool) -> Option<&'static ClauseSort> {
        let sort = discriminant(&self);
        SORTS
            .iter()
            .find(|each| discriminant(&each.relation) == sort && each.negated == negated)
    }

    /// Whether there is a clause that says this, or its negation.
    pub fn fits(self, negated: bool) -> bool {
        self.sort(negated).is_some()
    }
}

impl Clause {
    pub fn terms(&self) -> Vec<Term> {
        self.relation.terms()
    }

    /// The clause that says the contrary of the same relation, if the format has one.
    pub fn negation(&self) -> Option<Clause> {
        let (relation, negated) = (self.relation, !self.negated);
        relation
            .fits(negated)
            .then_some(Clause { relation, negated })
    }
}

/// A sort of clause: how the format says a relation, or its negation.
pub struct ClauseSort {
    /// The command in the first system, and in the second.
    pub commands: [u8; 2],
    /// The relation; its terms mean nothing here.
    pub relation: Relation,
    pub negated: bool,
}

const fn sort(commands: [u8; 2], relation: Relation, negated: bool) -> ClauseSort {
    ClauseSort {
        commands,
        relation,
        negated,
    }
}

const ANY: Term = Term::Variable(0);

/// All clauses that the format has.
pub const SORTS: &[ClauseSort] = &[
    sort([0x10, 0x20], Relation::Join(ANY, ANY, ANY), false),
    sort([0x11, 0x21], Relation::Join(ANY, ANY, ANY), true),
    sort([0x12, 0x22], Relation::Equal(ANY, ANY), false),
    sort([0x13, 0x23], Relation::Equal(ANY, ANY), true),
    sort([0x30, 0x38], Relation::Full(ANY), false),
    sort([0x31, 0x39], Relation::Empty(ANY), true),
    sort([0x32, 0x3A], Relation::Together(ANY, ANY), false),
];

/// A system's positive clauses and its disequations, each in order.
pub struct Split {
    pub positive: Vec<Clause>,
    pub disequations: Vec<Clause>,
}

pub fn split(clauses: &[Clause]) -> Split {
    Split {
        positive: positive(clauses),
        disequations: disequations(clauses),
    }
}

pub fn positive(clauses: &[Clause]) -> Vec<Clause> {
    clauses.iter().copied().filter(|c| !c.negated).collect()
}

pub fn disequations(clauses: &[Clause]) -> Vec<Clause> {
    clauses.iter().copied().filter(|c| c.negated).collect()
}

impl Question {
    /// The height h: that of the tallest constant that some clause names, of whichever system and sort; 0 if none is named.
    pub fn height(&self) -> u32 {
        let clauses = self.first.iter().chain(&self.second);
        let of_clause = |clause: &Clause| self.tallest(&clause.terms());
        clauses.map(of_clause).max().unwrap_or(0)
    }

    /// The height of the tallest constant among these terms; 0 if there is none.
    pub fn tallest(&self, terms: &[Term]) -> u32 {
        let of_term = |term: &Term| match *term {
            Term::Variable(_) => 0,
            Term::Constant(number) => self.constants[number].height(),
        };
        terms.iter().map(of_term).max().unwrap_or(0)
    }

    pub fn variables(&self) -> usize {
        self.free + self.own
    }

    /// The question of kind 0 whether the first system has a solution.
    pub fn first_alone(&self) -> Question {
        Question {
            entailment: false,
            own: 0,
            second: Vec::new(),
            ..self.clone()
        }
    }

    /// The height of a shown solution of kind 0.
    pub fn height_if_satisfiable(&self) -> u32 {
        self.height() + splits(disequations(&self.first).len())
    }

    /// The height of a shown solution that does not extend.
    pub fn height_if_not_entailed(&self) -> u32 {
        self.height() + splits(disequations(&self.first).len() + 1)
    }
}

fn refuse<T>(number: u8, place: usize) -> Result<T, Refusal> {
    Err(Refusal { number, place })
}

/// How many operand bytes a command has; none if the command is unknown.
pub fn operand_count(command: u8) -> Option<usize> {
    match command {
        0x00 => Some(0),
        0x01 => Some(3),
        0x03 => Some(4),
        _ => sort_of(command).map(|(sort, _)| sort.relation.terms().len()),
    }
}

/// The sort of clause with a command, and whether it is of the second system.
fn sort_of(command: u8) -> Option<(&'static ClauseSort, bool)> {
    SORTS.iter().find_map(|sort| {
        let system = sort.commands.iter().position(|byte| *byte == command)?;
        Some((sort, system == 1))
    })
}

/// The question that these bytes are, or the first fault.
pub fn read(bytes: &[u8]) -> Result<Question, Refusal> {
    let mut question = read_head(bytes)?;
    let mut at = 4;
    loop {
        let Some(&command) = bytes.get(at) else {
            return refuse(2, bytes.len());
        };
        let Some(count) = operand_count(command) else {
            return refuse(3, at);
        };
        let Some(operands) = bytes.get(at + 1..at + 1 + count) else {
            return refuse(2, at);
        };
        if command == 0x00 {
            return read_end(bytes, at + 1, question);
        }
        read_command(&mut question, command, operands)
            .map_err(|number| Refusal { number, place: at })?;
        at += 1 + count;
    }
}

fn read_head(bytes: &[u8]) -> Result<Question, Refusal> {
    if bytes.first() != Some(&0x01) {
        return refuse(1, 0);
    }
    let Some(&[kind, free, own]) = bytes.get(1..4).and_then(|o| o.first_chunk::<3>()) else {
        return refuse(2, 0);
    };
    let free = usize::from(free);
    let own = usize::from(own);
    if kind > 1 || free + own > MOST_VARIABLES || (kind == 0 && own > 0) {
        return refuse(5, 0);
    }
    Ok(Question {
        entailment: kind == 1,
        free,
        own,
        ..Question::default()
    })
}

fn read_end(bytes: &[u8], after: usize, question: Question) -> Result<Question, Refusal> {
    if after < bytes.len() {
        return refuse(10, after);
    }
    Ok(question)
}

fn read_command(question: &mut Question, command: u8, operands: &[u8]) -> Result<(), u8> {
    match command {
        0x01 => Err(4),
        0x03 => read_constant(question, operands),
        _ => {
            let (sort, second) = sort_of(command).expect("a known command");
            read_clause(question, sort, second, operands)
        }
    }
}

fn read_constant(question: &mut Question, leaves: &[u8]) -> Result<(), u8> {
    if !question.first.is_empty() || !question.second.is_empty() {
        return Err(4);
    }
    if question.constants.len() == MOST_CONSTANTS {
        return Err(6);
    }
    question.constants.push(tree_of_row(leaves));
    Ok(())
}

fn read_clause(
    question: &mut Question,
    sort: &ClauseSort,
    second: bool,
    operands: &[u8],
) -> Result<(), u8> {
    let negated = sort.negated;
    if second && !question.entailment {
        return Err(9);
    }
    let system = if second {
        &question.second
    } else {
        &question.first
    };
    let standing = system.iter().filter(|c| c.negated == negated).count();
    let most = if negated {
        MOST_DISEQUATIONS
    } else {
        MOST_POSITIVE
    };
    if standing == most {
        return Err(7);
    }
    let mut terms = Vec::new();
    for &operand in operands {
        terms.push(read_term(question, second, operand).ok_or(8)?);
    }
    let mut terms = terms.into_iter();
    let relation = sort
        .relation
        .with(|_| terms.next().expect("an operand for each"));
    let clause = Clause { relation, negated };
    if second {
        question.second.push(clause);
    } else {
        question.first.push(clause);
    }
    Ok(())
}

fn read_term(question: &Question, second: bool, operand: u8) -> Option<Term> {
    let operand = usize::from(operand);
    let named = if second {
        question.variables()
    } else {
        question.free
    };
    if operand < named {
        return Some(Term::Variable(operand));
    }
    let constant = operand.checked_sub(0x20)?;
    (constant < question.constants.len()).then_some(Term::Constant(constant))
}

pub fn term_byte(term: Term) -> u8 {
    match term {
        Term::Variable(v) => v as u8,
        Term::Constant(c) => 0x20 + c as u8,
    }
}

pub fn clause_bytes(clause: &Clause, second: bool) -> Vec<u8> {
    let sort = clause.relation.sort(clause.negated);
    let sort = sort.expect("a clause of the format");
    let mut bytes = vec![sort.commands[usize::from(second)]];
    bytes.extend(clause.terms().into_iter().map(term_byte));
    bytes
}

/// The head and the constants.
pub fn opening(question: &Question) -> Vec<u8> {
    let mut bytes = vec![
        0x01,
        u8::from(question.entailment),
        question.free as u8,
        question.own as u8,
    ];
    for constant in &question.constants {
        bytes.push(0x03);
        bytes.extend(bytes_of_leaves(&constant.leaves(CONSTANT_HEIGHT)));
    }
    bytes
}

/// The question in bytes. `second_next` says, where both systems have clauses left, whether the
/// second's comes next.
pub fn write(question: &Question, mut second_next: impl FnMut() -> bool) -> Vec<u8> {
    let mut bytes = opening(question);
    let mut first = question.first.iter().peekable();
    let mut second = question.second.iter().peekable();
    while first.peek().is_some() || second.peek().is_some() {
        let take_second = first.peek().is_none() || (second.peek().is_some() && second_next());
        let next = if take_second {
            second.next()
        } else {
            first.next()
        };
        if let Some(clause) = next {
            bytes.extend(clause_bytes(clause, take_second));
        }
    }
    bytes.push(0x00);
    bytes
}

/// The first system's clauses, then the second's.
pub fn write_in_order(question: &Question) -> Vec<u8> {
    write(question, || false)
}

pub fn hex(bytes: &[u8]) -> String {
    let pairs: Vec<String> = bytes.iter().map(|b| format!("{b:02X}")).collect();
    pairs.join(" ")
}
