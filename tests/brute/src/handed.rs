//! What judging is to give of rows that someone hands over: the refusals in their order, then the judgement, leaf by leaf. Each word
//! that a slip may misread is a function of its own.

use crate::due::packed_refusal;
use crate::judge::{ANSWER_BYTES, ROW_BYTES};
use crate::question::{read, split, Clause, Question, Refusal, Relation, Term};
use crate::single::{beside, holds_at_leaf};
use crate::tree::{join_leaves, number_of_tree, CONSTANT_HEIGHT, ROW_HEIGHT};
use std::collections::HashSet;

pub const WRONG_LENGTH: u8 = 18;
pub const FOREIGN_BIT: u8 = 19;

/// Which way a clause fails at a leaf.
#[derive(Clone, Copy, Debug, PartialEq, Eq)]
pub enum Way {
    /// Both parts are full.
    Overlap = 1,
    /// Just one part is full, and the sum is empty.
    Surplus = 2,
    /// Both parts are empty, and the sum is full.
    Shortfall = 3,
}

/// Where a positive clause fails.
#[derive(Clone, Copy, Debug, PartialEq, Eq)]
pub struct Failing {
    pub way: Way,
    /// The leaf of the rows.
    pub leaf: usize,
}

/// What is said of rows that are not refused.
#[derive(Clone, Copy, Debug, PartialEq, Eq)]
pub enum Judgement {
    Accepted,
    /// They break this clause of the first system and none before it; where it fails, if it is positive.
    Broken(usize, Option<Failing>),
    Extends,
}

pub type Judged = Result<Judgement, Refusal>;

/// The number's bytes: 0 refused, 1 accepted, 2 broken, 3 the rows extend; refusal number, place in two bytes, clause number, the way in which a positive clause fails, and
/// the leaf in two bytes.
pub fn packed(judged: Judged) -> u64 {
    match judged {
        Err(refusal) => packed_refusal(refusal),
        Ok(Judgement::Accepted) => 1,
        Ok(Judgement::Broken(clause, failing)) => {
            let (way, leaf) = failing.map_or((0, 0), |at| (at.way as u8, at.leaf as u16));
            let [low, high] = leaf.to_le_bytes();
            u64::from_le_bytes([2, 0, 0, 0, clause as u8, way, low, high])
        }
        Ok(Judgement::Extends) => 3,
    }
}

/// The values of the free variables and of the constants at one leaf.
#[derive(Clone, Debug, PartialEq, Eq, Hash)]
pub struct Leaf {
    pub choice: Vec<bool>,
    pub constants: Vec<bool>,
}

/// A question and the bytes that it was read from.
pub struct Asked<'a> {
    pub bytes: &'a [u8],
    pub question: Question,
    /// The constants, leaf i at bit i.
    constants: Vec<u32>,
}

/// How judging reads its law, word by word.
#[derive(Clone, Copy)]
pub struct Words {
    /// The question, or the first refusal.
    pub question: fn(&[u8], &[u8]) -> Result<Question, Refusal>,
    /// The leaves that are looked at, those that are alike once.
    pub leaves: fn(&Question, &[u8]) -> Vec<Leaf>,
    /// Whether a clause of the first system holds.
    pub holds: fn(&Clause, &[Leaf]) -> bool,
    /// Which of the broken clauses is named; there is one.
    pub named: fn(&Asked, &[usize]) -> usize,
    pub extends: fn(&Question, &[Leaf], &[u8]) -> bool,
    /// What is said of rows that solve the first system, by whether they are to be extended and are.
    pub said: fn(bool, bool) -> Judgement,
}

pub const AS_WRITTEN: Words = Words {
    question,
    leaves: |question, rows| leaves(question, rows, 0..1 << ROW_HEIGHT),
    holds,
    named: |_, broken| broken[0],
    extends: |question, leaves, _| extends(question, leaves),
    said,
};

impl Words {
    pub fn judge(&self, bytes: &[u8], rows: &[u8]) -> Judged {
        let question = (self.question)(bytes, rows)?;
        let leaves = (self.leaves)(&question, rows);
        let broken = self.broken(&question, &leaves);
        if !broken.is_empty() {
            let asked = Asked::new(bytes, question);
            let named = (self.named)(&asked, &broken);
            let failing = asked.failing(rows, broken[0]);
            return Ok(Judgement::Broken(named, failing));
        }
        let extends = question.entailment && (self.extends)(&question, &leaves, rows);
        Ok((self.said)(question.entailment, extends))
    }

    /// All clauses of the first system that do not hold.
    fn broken(&self, question: &Question, leaves: &[Leaf]) -> Vec<usize> {
        let clauses = question.first.iter().enumerate();
        clauses
            .filter(|(_, clause)| !(self.holds)(clause, leaves))
            .map(|(number, _)| number)
            .collect()
    }
}

/// All clauses of the first system that rows break; none of what is refused.
pub fn broken(bytes: &[u8], rows: &[u8]) -> Vec<usize> {
    let question = question(bytes, rows);
    let broken =
        |question: Question| AS_WRITTEN.broken(&question, &(AS_WRITTEN.leaves)(&question, rows));
    question.map_or(Vec::new(), broken)
}

/// What judging gives, leaf by leaf.
pub fn judged(bytes: &[u8], rows: &[u8]) -> Judged {
    AS_WRITTEN.judge(bytes, rows)
}

/// A fault of the question, then one of the rows: their length, then a bit of a row of no free variable.
fn question(bytes: &[u8], rows: &[u8]) -> Result<Question, Refusal> {
    let question = read(bytes)?;
    let place = 0;
    if rows.len() != ANSWER_BYTES {
        return Err(Refusal {
            number: WRONG_LENGTH,
            place,
        });
    }
    if rows[question.free * ROW_BYTES..].iter().any(|b| *b != 0) {
        return Err(Refusal {
            number: FOREIGN_BIT,
            place,
        });
    }
    Ok(question)
}

/// The values at these leaves of the rows, those that are alike once. A leaf of a constant stands over 32 of them.
pub fn leaves(
    question: &Question,
    rows: &[u8],
    numbers: impl IntoIterator<Item = usize>,
) -> Vec<Leaf> {
    let below = ROW_HEIGHT - CONSTANT_HEIGHT;
    leaves_by(question, rows, numbers, |leaf| leaf >> below)
}

/// The same, with the leaf of the constants that stands over each.
pub fn leaves_by(
    question: &Question,
    rows: &[u8],
    numbers: impl IntoIterator<Item = usize>,
    over: impl Fn(usize) -> usize,
) -> Vec<Leaf> {
    let constants: Vec<u32> = question.constants.iter().map(number_of_tree).collect();
    let mut seen = HashSet::new();
    let mut found = Vec::new();
    let mut last = None;
    for leaf in numbers {
        let mut key = 0_u64;
        for variable in 0..question.free {
            let byte = rows[variable * ROW_BYTES + leaf / 8];
            key = key << 1 | u64::from(byte >> (leaf % 8) & 1);
        }
        for constant in &constants {
            key = key << 1 | u64::from(constant >> over(leaf) & 1);
        }
        if last != Some(key) && seen.insert(key) {
            found.push(leaf_of_key(key, question.free, constants.len()));
        }
        last = Some(key);
    }
    found
}

fn leaf_of_key(key: u64, free: usize, constants: usize) -> Leaf {
    let digit = |place: usize| key >> (free + constants - 1 - place) & 1 == 1;
    Leaf {
        choice: (0..free).map(digit).collect(),
        constants: (free..free + constants).map(digit).collect(),
    }
}

/// A positive clause holds at every leaf, a disequation at one.
fn holds(clause: &Clause, leaves: &[Leaf]) -> bool {
    let mut held = leaves
        .iter()
        .map(|leaf| holds_at_leaf(clause, &leaf.choice, &leaf.constants));
    match clause.negated {
        true => held.any(|held| held),
        false => held.all(|held| held),
    }
}

impl Asked<'_> {
    pub fn new(bytes: &[u8], question: Question) -> Asked<'_> {
        let constants = question.constants.iter().map(number_of_tree).collect();
        Asked {
            bytes,
            question,
            constants,
        }
    }

    /// The leftmost leaf of the rows at which a positive clause fails, and which way; of a disequation neither.
    pub fn failing(&self, rows: &[u8], number: usize) -> Option<Failing> {
        let Clause { relation, negated } = self.question.first[number];
        match negated {
            true => None,
            false => self
                .all_failing(rows, |full| way(parts(relation, full)))
                .next(),
        }
    }

    /// All leaves of the rows at which something fails, from the left, where this says which way it does, by whether terms are full there.
    pub fn all_failing<'a>(
        &'a self,
        rows: &'a [u8],
        way: impl Fn(&dyn Fn(Term) -> bool) -> Option<Way> + 'a,
    ) -> impl Iterator<Item = Failing> + 'a {
        (0..1 << ROW_HEIGHT).filter_map(move |leaf| {
            let over = leaf >> (ROW_HEIGHT - CONSTANT_HEIGHT);
            let full = |term| match term {
                Term::Variable(v) => full_at(rows, v, leaf),
                Term::Constant(c) => self.constants[c] >> over & 1 == 1,
            };
            way(&full).map(|way| Failing { way, leaf })
        })
    }
}

/// Whether a leaf of a variable's row is full; what rows that are too short lack is empty.
fn full_at(rows: &[u8], variable: usize, leaf: usize) -> bool {
    let byte = rows.get(variable * ROW_BYTES + leaf / 8);
    byte.is_some_and(|byte| byte >> (leaf % 8) & 1 == 1)
}

/// The two parts of the join that a relation reads as, and its sum.
pub fn parts(relation: Relation, full: impl Fn(Term) -> bool) -> [bool; 3] {
    match relation {
        Relation::Join(a, b, c) => [full(a), full(b), full(c)],
        Relation::Equal(a, b) => [full(a), false, full(b)],
        Relation::Full(a) => [full(a), false, true],
        Relation::Empty(a) => [full(a), false, false],
        Relation::Together(a, b) => [full(a), full(b), full(a) || full(b)],
    }
}

/// Which way a join fails at a leaf, if it does: it is undefined there, or it gives full or empty and the sum is the other.
pub fn way([a, b, sum]: [bool; 3]) -> Option<Way> {
    match join_leaves(a, b) {
        None => Some(Way::Overlap),
        Some(given) if given == sum => None,
        Some(true) => Some(Way::Surplus),
        Some(false) => Some(Way::Shortfall),
    }
}

/// Own trees may be taller than the rows, so below each leaf there is room for all own choices: the positive clauses must be met at every
/// leaf, and each disequation must be had beside them at one.
pub fn extends(question: &Question, leaves: &[Leaf]) -> bool {
    let second = split(&question.second);
    let mut had = vec![false; second.disequations.len()];
    for leaf in leaves {
        let here = beside(&second, question.own, &leaf.choice, &leaf.constants);
        if !here.met {
            return false;
        }
        for (had, here) in had.iter_mut().zip(here.had) {
            *had |= here;
        }
    }
    had.into_iter().all(|had| had)
}

fn said(_entailment: bool, extends: bool) -> Judgement {
    match extends {
        true => Judgement::Extends,
        false => Judgement::Accepted,
    }
}
