//! How rows break a question, read once more, from the bytes of the question alone: the lowest clause of the first system that does not hold, and of a positive one the
//! leftmost leaf of the rows that fails and which way. Each clause is read as two parts that are joined and a sum, and a table has what the
//! test of a join says in each of the eight cases. It shares with `handed` only the types in which a judgement is told.

use crate::handed::{Failing, Judged, Judgement, Way};
use crate::judge::ROW_BYTES;

const LEAVES: usize = 8 * ROW_BYTES;
/// Where the constants stand in a question, and how many bytes each command of theirs has.
const HEAD_BYTES: usize = 4;
const CONSTANT_BYTES: usize = 5;

/// What the test of a join says at a leaf, by the first part, the second part and the sum, each empty or full. None: it holds.
const SAYS: [[[Option<Way>; 2]; 2]; 2] = [
    [[None, Some(Way::Shortfall)], [Some(Way::Surplus), None]],
    [
        [Some(Way::Surplus), None],
        [Some(Way::Overlap), Some(Way::Overlap)],
    ],
];

/// A clause of the first system: its command and its terms, as they stand in the question.
struct Written<'a> {
    command: u8,
    terms: &'a [u8],
}

impl Written<'_> {
    fn is_disequation(&self) -> bool {
        matches!(self.command, 0x11 | 0x13 | 0x31)
    }

    /// The two parts and the sum where the terms have these values: a equals b if a joined with empty gives b, a is full if that gives full, and empty if it gives empty;
    /// what may be held together is joined, whatever it gives.
    fn parts(&self, full: impl Fn(u8) -> bool) -> [bool; 3] {
        let at = |place: usize| full(self.terms[place]);
        match self.command {
            0x10 | 0x11 => [at(0), at(1), at(2)],
            0x12 | 0x13 => [at(0), false, at(1)],
            0x30 => [at(0), false, true],
            0x31 => [at(0), false, false],
            0x32 => [at(0), at(1), at(0) || at(1)],
            other => panic!("{other:02X} is no clause of the first system"),
        }
    }
}

/// How many terms the clauses of both systems have.
fn term_count(command: u8) -> usize {
    match command {
        0x10 | 0x11 | 0x20 | 0x21 => 3,
        0x12 | 0x13 | 0x22 | 0x23 | 0x32 | 0x3A => 2,
        0x30 | 0x31 | 0x38 | 0x39 => 1,
        other => panic!("{other:02X} is no clause"),
    }
}

/// The first system's clauses of a question that is not refused.
fn first_system(bytes: &[u8]) -> Vec<Written<'_>> {
    let mut at = HEAD_BYTES;
    while bytes[at] == 0x03 {
        at += CONSTANT_BYTES;
    }
    let mut clauses = Vec::new();
    while bytes[at] != 0x00 {
        let command = bytes[at];
        let next = at + 1 + term_count(command);
        if matches!(command, 0x10..=0x13 | 0x30..=0x32) {
            let terms = &bytes[at + 1..next];
            clauses.push(Written { command, terms });
        }
        at = next;
    }
    clauses
}

/// Whether a term is full at a leaf of the rows. A leaf of a constant stands over 32 of these.
fn full_at(bytes: &[u8], rows: &[u8], term: u8, leaf: usize) -> bool {
    let term = usize::from(term);
    let (start, leaf) = match term {
        0x20.. => (HEAD_BYTES + CONSTANT_BYTES * (term - 0x20) + 1, leaf / 32),
        _ => (0, LEAVES * term + leaf),
    };
    let share = if term >= 0x20 { bytes } else { rows };
    share[start + leaf / 8] >> (leaf % 8) & 1 == 1
}

/// The first leaf from the left at which a clause fails, read as a join, and which way.
fn leftmost(bytes: &[u8], rows: &[u8], clause: &Written) -> Option<Failing> {
    (0..LEAVES).find_map(|leaf| {
        let [a, b, sum] = clause.parts(|term| full_at(bytes, rows, term, leaf));
        let way = SAYS[usize::from(a)][usize::from(b)][usize::from(sum)]?;
        Some(Failing { way, leaf })
    })
}

/// The lowest broken clause of a question and rows that are not refused, and how it fails: a disequation if its negation fails nowhere.
pub fn broken(bytes: &[u8], rows: &[u8]) -> Option<Judgement> {
    let clauses = first_system(bytes);
    clauses.iter().enumerate().find_map(|(number, clause)| {
        let failing = leftmost(bytes, rows, clause);
        match clause.is_disequation() == failing.is_none() {
            true => Some(Judgement::Broken(number, failing)),
            false => None,
        }
    })
}

/// What this reading says against a judgement that is due, if anything. Of what is refused it says nothing.
pub fn against(bytes: &[u8], rows: &[u8], due: Judged) -> Option<String> {
    let due = due.ok()?;
    let read = broken(bytes, rows);
    let same = match due {
        Judgement::Broken(..) => read == Some(due),
        Judgement::Accepted | Judgement::Extends => read.is_none(),
    };
    (!same).then(|| format!("from the bytes {read:?}, due {due:?}"))
}
