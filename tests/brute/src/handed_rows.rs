//! Makes rows to hand over: solutions of the first system, the same with a change, and any rows.

use crate::damage::damaged;
use crate::fixed;
use crate::handed_by_hand;
use crate::judge::{ANSWER_BYTES, ROW_BYTES};
use crate::make::{random_question, random_row, shuffle, Size};
use crate::question::{positive, write, Clause, Question, Relation, Term};
use crate::random::Random;
use crate::single::{choices, constants_by_leaf, decide, holds_at_leaf};
use crate::slips::some_question;
use crate::tree::{row_of_tree, Tree, ROW_HEIGHT};
use crate::worked;
use std::collections::HashMap;

const ROW_LEAVES: usize = 1 << ROW_HEIGHT;

/// The rows that asking shows, if it shows any.
pub fn shown(question: &Question) -> Option<Vec<u8>> {
    fixed::rows(question, &decide(question))
}

/// The rows that asking shows of the first system alone, if it has a solution.
pub fn solution(question: &Question) -> Option<Vec<u8>> {
    shown(&question.first_alone())
}

/// The row of each free variable from its leaves; the other rows are zero.
fn rows_of_leaves(rows: &[Vec<bool>]) -> Vec<u8> {
    let mut bytes = vec![0; ANSWER_BYTES];
    for (part, leaves) in bytes.chunks_mut(ROW_BYTES).zip(rows) {
        part.copy_from_slice(&row_of_tree(&Tree::from_leaves(leaves)));
    }
    bytes
}

/// Rows of this height with random leaves for the free variables.
pub fn any(random: &mut Random, question: &Question, height: u32) -> Vec<u8> {
    let rows = (0..question.free).map(|_| random_row(random, height));
    let mut bytes = rows.collect::<Vec<_>>().concat();
    bytes.resize(ANSWER_BYTES, 0);
    bytes
}

/// Rows that carry at each leaf of some height a random choice that meets the first system's positive clauses there. None if some leaf has
/// no such choice. The height is no less than the question's.
pub fn mixture(random: &mut Random, question: &Question, height: u32) -> Option<Vec<u8>> {
    let clauses = positive(&question.first);
    let all: Vec<Vec<bool>> = choices(question.free).collect();
    let mut allowed: HashMap<Vec<bool>, Vec<&Vec<bool>>> = HashMap::new();
    let mut rows = vec![Vec::new(); question.free];
    for constants in constants_by_leaf(question, height) {
        let here = allowed.entry(constants).or_insert_with_key(|constants| {
            let meets = |choice: &&Vec<bool>| {
                let mut clauses = clauses.iter();
                clauses.all(|clause| holds_at_leaf(clause, choice, constants))
            };
            all.iter().filter(meets).collect()
        });
        if here.is_empty() {
            return None;
        }
        let choice = random.pick(here);
        for (row, value) in rows.iter_mut().zip(choice) {
            row.push(*value);
        }
    }
    Some(rows_of_leaves(&rows))
}

/// Some rows for a question, mostly near to a solution of the first system.
pub fn some(random: &mut Random, question: &Question) -> Vec<u8> {
    let lowest = question.height();
    let height = random.between(lowest as usize, ROW_HEIGHT as usize) as u32;
    let rows = match random.below(5) {
        0 => shown(question),
        1 => solution(question),
        2 => mixture(random, question, lowest),
        3 => mixture(random, question, height),
        _ => None,
    };
    rows.unwrap_or_else(|| {
        let height = random.below(ROW_HEIGHT as usize + 1) as u32;
        any(random, question, height)
    })
}

/// Turns all leaves of a row.
fn negate(row: &mut [u8]) {
    for byte in row {
        *byte ^= 0xFF;
    }
}

/// Rows with one change of a free variable's row: a leaf turned, the first or the last one turned, a block of leaves filled; another row in its place, or
/// any; its negation; two rows changed for each other. Now and then all are random.
pub fn changed(random: &mut Random, question: &Question, rows: &[u8]) -> Vec<u8> {
    let mut rows = rows.to_vec();
    if question.free == 0 {
        return rows;
    }
    let mut variable = || random.below(question.free) * ROW_BYTES;
    let (one, other) = (variable(), variable());
    let kept = rows[one..one + ROW_BYTES].to_vec();
    match random.below(8) {
        0 => rows[one + random.below(ROW_BYTES)] ^= 1 << random.below(8),
        1 => match random.once_in(2) {
            true => rows[one] ^= 0x01,
            false => rows[one + ROW_BYTES - 1] ^= 0x80,
        },
        2 => {
            let bytes = 1 << random.below(8);
            let start = one + random.below(ROW_BYTES / bytes) * bytes;
            rows[start..start + bytes].fill(random.pick(&[0x00, 0xFF]));
        }
        3 => rows.copy_within(other..other + ROW_BYTES, one),
        4 => {
            let height = random.below(ROW_HEIGHT as usize + 1) as u32;
            rows[one..one + ROW_BYTES].copy_from_slice(&random_row(random, height));
        }
        5 => negate(&mut rows[one..one + ROW_BYTES]),
        6 => {
            rows.copy_within(other..other + ROW_BYTES, one);
            rows[other..other + ROW_BYTES].copy_from_slice(&kept);
        }
        _ => random.fill(&mut rows[..question.free * ROW_BYTES]),
    }
    rows
}

/// Rows that have one bit set where none may be, or another length.
pub fn faulty(random: &mut Random, question: &Question, rows: &[u8]) -> Vec<u8> {
    let mut rows = rows.to_vec();
    let foreign = question.free * ROW_BYTES;
    if foreign < ANSWER_BYTES {
        rows[random.between(foreign, ANSWER_BYTES - 1)] |= 1 << random.below(8);
    }
    if foreign == ANSWER_BYTES || random.once_in(3) {
        let length = random.pick(&[0, 1, ROW_BYTES, ANSWER_BYTES - 1, ANSWER_BYTES + 1]);
        rows.resize(length, random.byte());
    }
    rows
}

/// A share that is full at one leaf of some height and is to be split in two or in three, or one that is empty there alone beside ten own readers: own trees one, two
/// or four taller are needed, half of the time taller than 10.
fn one_leaf_to_split(random: &mut Random) -> (Vec<u8>, Vec<u8>) {
    let lower = random.below(ROW_HEIGHT as usize) as u32;
    let wide = ROW_LEAVES >> random.pick(&[ROW_HEIGHT, lower]);
    let start = random.below(ROW_LEAVES / wide) * wide;
    let mut rows = vec![0; ANSWER_BYTES];
    for leaf in start..start + wide {
        rows[leaf / 8] |= 1 << (leaf % 8);
    }
    let question = match random.below(8) {
        0..=2 => handed_by_hand::SPLIT,
        3..=6 => handed_by_hand::THREE_PARTS,
        _ => {
            negate(&mut rows[..ROW_BYTES]);
            handed_by_hand::TEN_READERS
        }
    };
    (worked::bytes(question), rows)
}

/// One to four own shares beside a row that is empty at one leaf of its height, or at two: mostly own trees must be taller than the row.
pub fn own_parts(random: &mut Random) -> (Question, Vec<u8>) {
    let own = random.between(1, 4);
    let not_full = Clause {
        relation: Relation::Equal(Term::Variable(0), Term::Constant(0)),
        negated: true,
    };
    let question = Question {
        entailment: true,
        free: 1,
        own,
        constants: vec![Tree::Full],
        first: vec![not_full],
        second: parts(random, own),
    };
    let height = if own < 3 { random.below(3) } else { 0 };
    let mut leaves = vec![true; 1 << height];
    for _ in 0..random.between(1, 2) {
        let at = random.below(leaves.len());
        leaves[at] = false;
    }
    (question, rows_of_leaves(&[leaves]))
}

/// So many own shares lie beside v0, apart from each other, and are not empty; where there are one or two, the first does not fill up v0. Now and then a
/// clause is left out.
fn parts(random: &mut Random, own: usize) -> Vec<Clause> {
    let mut clauses = Vec::new();
    let mut mostly = |relation, negated| {
        if !random.once_in(12) {
            clauses.push(Clause { relation, negated });
        }
    };
    for one in 1..=own {
        for other in 0..one {
            let (one, other) = (Term::Variable(one), Term::Variable(other));
            mostly(Relation::Together(one, other), false);
        }
        mostly(Relation::Empty(Term::Variable(one)), true);
    }
    if own < 3 {
        let [v0, one] = [0, 1].map(Term::Variable);
        mostly(Relation::Join(v0, one, Term::Constant(0)), true);
    }
    shuffle(random, &mut clauses);
    clauses
}

/// Questions for which own trees are soon taller than the rows.
const LOW: Size = Size {
    free: 2,
    own: 2,
    constants: 1,
    height: 0,
    positive: 1,
    disequations: 4,
    policies: true,
};

/// A question and rows for it; now and then one of them has a fault.
pub fn some_case(random: &mut Random) -> (Vec<u8>, Vec<u8>) {
    if random.once_in(16) {
        return one_leaf_to_split(random);
    }
    let question = match random.once_in(4) {
        true => random_question(random, &LOW),
        false => some_question(random),
    };
    let mut bytes = write(&question, || random.once_in(2));
    let mut rows = some(random, &question);
    if random.once_in(2) {
        rows = changed(random, &question, &rows);
    }
    if random.once_in(4) {
        rows = faulty(random, &question, &rows);
    }
    if random.once_in(6) {
        bytes = damaged(random, &bytes);
    }
    (bytes, rows)
}
