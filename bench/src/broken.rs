//! The families of judging in which a clause is broken: of a positive one it is said where it fails and which way. Everything else holds, at every leaf.

use crate::families::{clauses_of_split, constants_of_split, Family};
use brute::handed::{Failing, Way};
use brute::judge::{ANSWER_BYTES, ROW_BYTES};
use brute::question::{
    write_in_order, Clause, Question, Relation, Term, MOST_POSITIVE, MOST_VARIABLES,
};

/// The name of each of them starts so.
pub const NAME: &str = "judging: broken";

const LEAVES: [usize; 2] = [0, 8 * ROW_BYTES - 1];
const WAYS: [Way; 3] = [Way::Overlap, Way::Surplus, Way::Shortfall];

pub fn all() -> Vec<Family> {
    let [a, b, c] = [0, 1, 2].map(Term::Variable);
    let mut families = Vec::new();
    for at in places() {
        families.push(small("join", Relation::Join(a, b, c), at, full_in(at.way)));
    }
    for at in places().filter(|at| at.leaf != 0) {
        families.push(match at.way {
            Way::Overlap => small("held together", Relation::Together(a, b), at, &[0, 1]),
            Way::Surplus => small("equality", Relation::Equal(a, b), at, &[0]),
            Way::Shortfall => small("equality", Relation::Equal(a, b), at, &[1]),
        });
    }
    families.push(not_full());
    families.push(disequation());
    families.extend(places().map(largest));
    families
}

/// Each way, at the first leaf and at the last.
fn places() -> impl Iterator<Item = Failing> {
    let each = |way| LEAVES.map(|leaf| Failing { way, leaf });
    WAYS.into_iter().flat_map(each)
}

/// Which of the two parts and the sum of a join are full where it fails so.
fn full_in(way: Way) -> &'static [usize] {
    match way {
        Way::Overlap => &[0, 1, 2],
        Way::Surplus => &[0],
        Way::Shortfall => &[2],
    }
}

fn name(clause: &str, at: Failing) -> String {
    let way = format!("{:?}", at.way).to_lowercase();
    format!("{NAME} {clause}, {way} at leaf {}", at.leaf)
}

/// A question of kind 0 with three variables and one clause.
fn question(relation: Relation, negated: bool) -> Vec<u8> {
    write_in_order(&Question {
        free: 3,
        first: vec![Clause { relation, negated }],
        ..Question::default()
    })
}

/// Turns one leaf in the row of each of these variables.
fn turn(rows: &mut [u8], variables: &[usize], leaf: usize) {
    for variable in variables {
        rows[variable * ROW_BYTES + leaf / 8] ^= 1 << (leaf % 8);
    }
}

/// The shares of these variables are full at one leaf, and all else is empty.
fn small(clause: &str, relation: Relation, at: Failing, full: &[usize]) -> Family {
    let mut rows = vec![0; ANSWER_BYTES];
    turn(&mut rows, full, at.leaf);
    Family {
        name: name(clause, at),
        inputs: vec![[rows, question(relation, false)].concat()],
    }
}

/// A share that must be full is so but for its last leaf.
fn not_full() -> Family {
    let (way, leaf) = (Way::Shortfall, LEAVES[1]);
    let mut rows = vec![0; ANSWER_BYTES];
    rows[..ROW_BYTES].fill(0xFF);
    turn(&mut rows, &[0], leaf);
    Family {
        name: name("is full", Failing { way, leaf }),
        inputs: vec![[rows, question(Relation::Full(Term::Variable(0)), false)].concat()],
    }
}

/// Two shares that are the same must not be. Nothing more is said of that.
fn disequation() -> Family {
    let [a, b] = [0, 1].map(Term::Variable);
    Family {
        name: format!("{NAME} disequation"),
        inputs: vec![[vec![0; ANSWER_BYTES], question(Relation::Equal(a, b), true)].concat()],
    }
}

/// With 12 free variables the last of 64 positive clauses: the join of the last three.
fn largest(at: Failing) -> Family {
    let last = [3, 2, 1].map(|behind| Term::Variable(MOST_VARIABLES - behind));
    let mut first = clauses_of_split(MOST_VARIABLES, 0..0);
    let [a, b, c] = last;
    first[MOST_POSITIVE - 1].relation = Relation::Join(a, b, c);
    let question = Question {
        free: MOST_VARIABLES,
        constants: constants_of_split(),
        first,
        ..Question::default()
    };
    let mut rows = vec![0; ANSWER_BYTES];
    let full = full_in(at.way).iter().map(|part| MOST_VARIABLES - 3 + part);
    turn(&mut rows, &full.collect::<Vec<usize>>(), at.leaf);
    Family {
        name: name("clause 63 of 95", at),
        inputs: vec![[rows, write_in_order(&question)].concat()],
    }
}

#[cfg(test)]
mod tests {
    use super::{all, name, NAME};
    use crate::judged::parts;
    use brute::handed::{broken, judged, Judgement};

    /// The number of the clause that is to be broken, and the first command behind the head.
    fn meant(clause: &str) -> (usize, u8) {
        match clause {
            "join" => (0, 0x10),
            "equality" => (0, 0x12),
            "is full" => (0, 0x30),
            "held together" => (0, 0x32),
            "disequation" => (0, 0x13),
            "clause 63 of 95" => (63, 0x03),
            other => panic!("{other} is none of them"),
        }
    }

    /// The clause that the name says is broken, no other is, and it fails the way that the name says, at the leaf that it says; the disequation does not say where.
    #[test]
    fn broken_as_named() {
        for family in all() {
            let (rows, bytes) = parts(&family.inputs[0]);
            let clause = family.name[NAME.len() + 1..].split(',').next();
            let clause = clause.expect("its clause");
            let (number, command) = meant(clause);
            assert_eq!((broken(bytes, rows), bytes[4]), (vec![number], command));
            let Ok(Judgement::Broken(_, failing)) = judged(bytes, rows) else {
                panic!("{}: no clause is broken", family.name);
            };
            let told = failing.map(|at| name(clause, at));
            assert_eq!(told.unwrap_or(format!("{NAME} disequation")), family.name);
        }
    }
}
