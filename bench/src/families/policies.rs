//! Permission policies: writers, readers and what may be held together, in chains of up to 12 variables; and at random.

use super::{family, Family};
use brute::make::{entailment, hidden_question, Change, Counts};
use brute::question::{Clause, Question, Relation, Term, MOST_VARIABLES};
use brute::random::Random;

const QUESTIONS: usize = 20;
const CONSTANTS: usize = 8;
const COUNTS: Counts = Counts {
    positive: 16,
    disequations: 8,
    policies: true,
};

pub fn all() -> [Family; 6] {
    [
        chains("policies, readers in a chain, satisfiable", readers),
        chains("policies, a writer at the chain's end, no solution", writer),
        chains("policies, an own reader beside a chain, entailed", beside),
        chains("policies, a chain's ends not together, reason 2", ends),
        at_random(
            "policies, 12 free, 16 + 8 clauses, satisfiable",
            satisfiable,
        ),
        at_random(
            "policies, 9 free, 3 own, 16 + 8 in each, entailed",
            entailed,
        ),
    ]
}

fn may_write(variable: usize) -> Clause {
    Clause {
        relation: Relation::Full(Term::Variable(variable)),
        negated: false,
    }
}

fn may_read(variable: usize) -> Clause {
    Clause {
        relation: Relation::Empty(Term::Variable(variable)),
        negated: true,
    }
}

fn together(one: usize, other: usize) -> Clause {
    Clause {
        relation: Relation::Together(Term::Variable(one), Term::Variable(other)),
        negated: false,
    }
}

/// Chains of 3 variables and more.
fn chains(name: &str, make: fn(usize) -> Question) -> Family {
    family(name, (3..=MOST_VARIABLES).map(make))
}

/// Each free variable may read, and may be held together with the next.
fn readers(free: usize) -> Question {
    let mut first: Vec<Clause> = (1..free).map(|v| together(v - 1, v)).collect();
    first.extend((0..free).map(may_read));
    Question {
        free,
        first,
        ..Question::default()
    }
}

/// The last of the chain may write as well, so that the one before it may not read.
fn writer(free: usize) -> Question {
    let mut question = readers(free);
    question.first.push(may_write(free - 1));
    question
}

/// Beside a chain of all variables but one stands an own reader, held together with the first; the second asks all else once more. The
/// chain's first may be held together with a reader, so it is not full, and leaves room.
fn beside(variables: usize) -> Question {
    let mut question = readers(variables - 1);
    let own = variables - 1;
    question.second = question.first.clone();
    question.second.extend([may_read(own), together(own, 0)]);
    Question {
        entailment: true,
        own: 1,
        ..question
    }
}

/// The two ends of a chain need not be held together.
fn ends(free: usize) -> Question {
    Question {
        entailment: true,
        second: vec![together(0, free - 1)],
        ..readers(free)
    }
}

/// Questions that name a constant of height 5.
fn at_random(name: &str, make: fn(&mut Random) -> Question) -> Family {
    let mut random = Random::new(110);
    let questions = std::iter::repeat_with(|| make(&mut random));
    let tall = questions.filter(|question| question.height() == 5);
    family(name, tall.take(QUESTIONS))
}

fn satisfiable(random: &mut Random) -> Question {
    hidden_question(random, MOST_VARIABLES, CONSTANTS, 5, COUNTS)
}

fn entailed(random: &mut Random) -> Question {
    let clauses = (COUNTS, COUNTS);
    entailment(random, (9, 3), (CONSTANTS, 5), clauses, Change::None)
}

#[cfg(test)]
mod tests {
    use super::{all, QUESTIONS};
    use brute::question::{read, Clause, Question, Relation, MOST_VARIABLES};
    use brute::single::decide;

    fn questions() -> Vec<Vec<Question>> {
        let read = |bytes: &Vec<u8>| read(bytes).expect("accepted");
        let families = all();
        let questions = families.iter().map(|f| f.inputs.iter().map(read));
        questions.map(Iterator::collect).collect()
    }

    /// The answers are those that the names tell: whether yes, and the reason.
    #[test]
    fn answers() {
        let due = [
            (true, 0),
            (false, 0),
            (true, 0),
            (false, 2),
            (true, 0),
            (true, 0),
        ];
        for (family, due) in questions().iter().zip(due) {
            for question in family {
                let outcome = decide(question);
                assert_eq!((outcome.yes, outcome.reason), due);
            }
        }
    }

    /// The questions that are made at random name a constant of height 5.
    #[test]
    fn heights() {
        let all = questions();
        let at_random = all[4..].iter().flatten();
        assert_eq!(at_random.clone().count(), 2 * QUESTIONS);
        assert!(at_random.into_iter().all(|q| q.height() == 5));
    }

    /// Each family has all 12 variables in some question, and each sort of policy stands somewhere in each system.
    #[test]
    fn what_stands_in_them() {
        let sorts: [fn(&Clause) -> bool; 3] = [
            |clause| matches!(clause.relation, Relation::Full(_)),
            |clause| matches!(clause.relation, Relation::Empty(_)),
            |clause| matches!(clause.relation, Relation::Together(..)),
        ];
        let all = questions();
        for family in &all {
            let most = family.iter().map(Question::variables).max();
            assert_eq!(most, Some(MOST_VARIABLES));
        }
        for sort in sorts {
            let mut questions = all.iter().flatten();
            assert!(questions.clone().any(|q| q.first.iter().any(sort)));
            assert!(questions.any(|q| q.second.iter().any(sort)));
        }
    }
}
