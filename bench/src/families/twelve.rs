//! Satisfiabilities with 12 free variables at height 5, round a hidden solution; and the same without one.

use super::{family, Family};
use brute::make::{hidden_question, Counts};
use brute::question::{positive, Clause, Question, Relation, Term, MOST_VARIABLES};
use brute::random::Random;
use brute::tree::tree_of_number;
use std::iter::repeat_with;

const QUESTIONS: usize = 20;
const CONSTANTS: usize = 8;
const COUNTS: Counts = Counts {
    positive: 16,
    disequations: 8,
    policies: false,
};

pub fn all() -> [Family; 3] {
    [
        round("12 free, 16 + 8 clauses, satisfiable", |_, _| ()),
        round("12 free, 16 + 8 clauses, a disequation unmet", unmet),
        round("12 free, 16 + 8 clauses, none at the last leaf", no_choice),
    ]
}

/// Questions round a hidden solution, each changed, that name a constant of height 5.
fn round(name: &str, change: fn(&mut Random, &mut Question)) -> Family {
    let mut random = Random::new(109);
    let questions = repeat_with(|| {
        let mut question = hidden_question(&mut random, MOST_VARIABLES, CONSTANTS, 5, COUNTS);
        change(&mut random, &mut question);
        question
    });
    let tall = questions.filter(|question| question.height() == 5);
    family(name, tall.take(QUESTIONS))
}

/// The last clause with this sign.
fn last(question: &mut Question, negated: bool) -> Option<&mut Clause> {
    let mut clauses = question.first.iter_mut().rev();
    clauses.find(|clause| clause.negated == negated)
}

/// The last disequation becomes the negation of a positive clause.
fn unmet(random: &mut Random, question: &mut Question) {
    let meant = random.pick(&positive(&question.first)).relation;
    if let Some(clause) = last(question, true) {
        clause.relation = meant;
    }
}

/// The last positive clause becomes one that the last leaf alone lacks: v join c is v, with c full there alone.
fn no_choice(random: &mut Random, question: &mut Question) {
    let variable = Term::Variable(random.below(MOST_VARIABLES));
    let only_last = Term::Constant(question.constants.len());
    question.constants.push(tree_of_number(1 << 31));
    if let Some(clause) = last(question, false) {
        clause.relation = Relation::Join(variable, only_last, variable);
    }
}

#[cfg(test)]
mod tests {
    use super::{all, QUESTIONS};
    use brute::question::{positive, read, Question, MOST_VARIABLES};
    use brute::single::decide;

    fn satisfiable(question: &Question) -> bool {
        decide(question).yes
    }

    /// As many questions as are told, with 12 free variables at height 5; those of the first family alone have a
    /// solution.
    #[test]
    fn the_first_alone_is_satisfiable() {
        for (number, family) in all().iter().enumerate() {
            assert_eq!(family.inputs.len(), QUESTIONS);
            for bytes in &family.inputs {
                let question = read(bytes).expect("accepted");
                assert_eq!((question.free, question.height()), (MOST_VARIABLES, 5));
                assert_eq!(satisfiable(&question), number == 0);
            }
        }
    }

    /// Only the disequations rule out a solution in the second family, only the positive clauses in the third.
    #[test]
    fn what_rules_out_a_solution() {
        let [_, unmet, no_choice] = all();
        for (family, due) in [(unmet, true), (no_choice, false)] {
            for bytes in &family.inputs {
                let mut question = read(bytes).expect("accepted");
                question.first = positive(&question.first);
                assert_eq!(satisfiable(&question), due);
            }
        }
    }
}
