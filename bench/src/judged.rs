//! The families of judging: the solutions that asking shows for the families of questions, worst cases, and rows that break a clause. An input is the rows, then the question. Judging is
//! compared with asking the same questions.

use crate::asking::{median_round, Buffers};
use crate::broken;
use crate::families::{self, clauses_of_split, constants_of_split, Family};
use crate::lines::Call;
use brute::handed::{judged, packed};
use brute::judge::{ANSWER_BYTES, ROW_BYTES};
use brute::library::{self, ASK_WORK_BYTES};
use brute::question::{write_in_order, Clause, Question, Relation, Term, MOST_VARIABLES};
use std::time::Duration;

/// The rows and the question of an input.
pub fn parts(input: &[u8]) -> (&[u8], &[u8]) {
    input.split_at(ANSWER_BYTES)
}

pub fn all() -> Vec<Family> {
    let shown = families::all().into_iter().map(shown);
    shown.chain(worst_cases()).chain(broken::all()).collect()
}

/// The questions of a family for which asking shows a solution, with its rows. There may be none, and another archive may show other rows.
fn shown(family: Family) -> Family {
    let with_rows = |question: Vec<u8>| Some([rows_shown(&question)?, question].concat());
    Family {
        name: format!("judging: {}", family.name),
        inputs: family.inputs.into_iter().filter_map(with_rows).collect(),
    }
}

/// The rows that asking shows: for a yes of kind 0 and a no of kind 1.
fn rows_shown(question: &[u8]) -> Option<Vec<u8>> {
    let (mut answer, mut work) = (vec![0; ANSWER_BYTES], vec![0; ASK_WORK_BYTES]);
    let number = library::ask(question, &mut answer, &mut work);
    matches!((question[1], number as u8), (0, 1) | (1, 2)).then_some(answer)
}

fn worst_cases() -> impl Iterator<Item = Family> {
    let split = |own| Family {
        name: format!(
            "judging: worst case, {} free, {own} own",
            MOST_VARIABLES - own
        ),
        inputs: vec![[rows_of_split(MOST_VARIABLES - own), question_of_split(own)].concat()],
    };
    (0..=MOST_VARIABLES).map(split)
}

/// The worst case of a split into free and own variables: the rows are accepted, after everything was looked at.
/// - The first system's clauses hold, all 95.
/// - The constants differ at all 32 leaves, so that what was found at one says nothing of another.
/// - The second system's positive clauses hold for every choice, so that none ends early, and its disequations for none, so that
///   all are looked for to the end, beside all own values.
fn question_of_split(own: usize) -> Vec<u8> {
    let mut second = clauses_of_split(MOST_VARIABLES, 0..0);
    let empty = Term::Constant(0);
    for (number, clause) in second.iter_mut().enumerate().filter(|(_, c)| c.negated) {
        let variable = Term::Variable(number % MOST_VARIABLES);
        *clause = Clause {
            relation: Relation::Join(variable, empty, variable),
            negated: true,
        };
    }
    let free = MOST_VARIABLES - own;
    write_in_order(&Question {
        entailment: true,
        free,
        own,
        constants: constants_of_split(),
        first: clauses_of_split(free, 0..0),
        second,
    })
}

/// Leaf i of variable v is digit v of i. So the choices below a leaf of the constants differ in the first variables, by which words of 64 choices
/// differ too, and as many words as can be are looked at there. Variables 10 and 11 are full.
fn rows_of_split(free: usize) -> Vec<u8> {
    let mut rows = vec![0; ANSWER_BYTES];
    for (variable, row) in rows.chunks_mut(ROW_BYTES).take(free).enumerate() {
        for leaf in 0..8 * ROW_BYTES {
            let digit = variable >= 10 || leaf >> variable & 1 == 1;
            row[leaf / 8] |= u8::from(digit) << (leaf % 8);
        }
    }
    rows
}

/// The library must give what is due leaf by leaf, and accept, or say that a clause is broken.
pub fn must_agree(family: &Family) {
    let said = match family.name.starts_with(broken::NAME) {
        true => 2,
        false => 1,
    };
    for input in &family.inputs {
        let (rows, question) = parts(input);
        let given = Buffers::new().call(Call::Judge, input);
        let due = packed(judged(question, rows));
        assert_eq!((given, given as u8), (due, said), "{}", family.name);
    }
}

/// The library's nanoseconds per question for asking the same.
pub fn time_asking(family: &Family, long: Duration) -> f64 {
    let mut buffers = Buffers::new();
    median_round(family, long, |input| {
        buffers.call(Call::Ask, parts(input).1)
    })
}

#[cfg(test)]
mod tests {
    use super::{parts, worst_cases};
    use brute::handed::{judged, leaves, Judgement};
    use brute::question::{read, split, Clause, MOST_DISEQUATIONS, MOST_POSITIVE, MOST_VARIABLES};
    use brute::single::holds_at_leaf;

    /// All are accepted, and with 5 free variables and more no two leaves of the rows look alike.
    #[test]
    fn accepted_with_different_leaves() {
        for (own, family) in worst_cases().enumerate() {
            let (rows, bytes) = parts(&family.inputs[0]);
            assert_eq!(judged(bytes, rows), Ok(Judgement::Accepted));
            let question = read(bytes).expect("accepted");
            let different = leaves(&question, rows, 0..1024).len();
            let free = MOST_VARIABLES - own;
            assert_eq!(different, 32 << free.min(5));
        }
    }

    /// In the second system positive clauses hold for every choice, at every leaf, and disequations for none.
    #[test]
    fn no_search_ends_early() {
        for family in worst_cases() {
            let (rows, bytes) = parts(&family.inputs[0]);
            let question = read(bytes).expect("accepted");
            let second = split(&question.second);
            let counts = (second.positive.len(), second.disequations.len());
            assert_eq!(counts, (MOST_POSITIVE, MOST_DISEQUATIONS));
            for leaf in leaves(&question, rows, (0..1024).step_by(32)) {
                for number in 0..1 << MOST_VARIABLES {
                    let digits = (0..MOST_VARIABLES).map(|v| number >> v & 1 == 1);
                    let choice: Vec<bool> = digits.collect();
                    let holds = |c: &Clause| holds_at_leaf(c, &choice, &leaf.constants);
                    assert!(second.positive.iter().all(holds));
                    assert!(!second.disequations.iter().any(holds));
                }
            }
        }
    }
}
