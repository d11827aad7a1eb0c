//! Questions with 32 constants, the tallest of height 5: clauses name all of them, or three that are lower. And smaller questions with 1 to 8
//! constants, of which all are named.

use super::{family, named, Family};
use brute::make::{entailment, hidden_question, random_tree, Change, Counts};
use brute::question::{Clause, Question, Relation, Term, MOST_CONSTANTS};
use brute::random::Random;
use brute::tree::tree_of_number;
use std::iter::repeat_with;

const QUESTIONS: usize = 50;
const COUNTS: Counts = Counts {
    positive: 48,
    disequations: 16,
    policies: false,
};
/// How many constants clauses name where they name few, and the height of the tallest of those.
const FEW: usize = 3;
const FEW_HEIGHT: u32 = 2;

/// How many constants the smaller questions have, how many of these there are, and their clauses.
const SMALLER: [usize; 4] = [1, 2, 3, 8];
const SMALLER_QUESTIONS: usize = 60;
const SMALLER_COUNTS: Counts = Counts {
    positive: 4,
    disequations: 2,
    policies: false,
};

pub fn all() -> Vec<Family> {
    let mut families = vec![
        all_named("satisfiable", 105, satisfiable),
        all_named("entailed", 106, entailed),
        few_named("satisfiable", 107, satisfiable),
        few_named("entailed", 108, entailed),
    ];
    families.extend(SMALLER.map(smaller));
    families
}

/// Makes a question with so many constants of that height, all meant for clauses.
type Make = fn(&mut Random, usize, u32) -> Question;

fn satisfiable(random: &mut Random, constants: usize, height: u32) -> Question {
    hidden_question(random, 4, constants, height, COUNTS)
}

fn entailed(random: &mut Random, constants: usize, height: u32) -> Question {
    let clauses = (COUNTS, COUNTS);
    entailment(random, (4, 2), (constants, height), clauses, Change::None)
}

/// A constant that no clause names yet is named in one more that holds, constant 0 being empty.
fn name_all(mut question: Question) -> Question {
    let so_far = named(&question);
    for number in (0..question.constants.len()).filter(|number| !so_far.contains(number)) {
        let (constant, empty) = (Term::Constant(number), Term::Constant(0));
        question.first.push(Clause {
            relation: Relation::Join(constant, empty, constant),
            negated: false,
        });
    }
    question
}

fn all_named(answer: &str, seed: u64, make: Make) -> Family {
    let mut random = Random::new(seed);
    let questions = repeat_with(|| name_all(make(&mut random, MOST_CONSTANTS, 5)));
    family(
        &format!("height 5, 32 constants, all named, {answer}"),
        questions.take(QUESTIONS),
    )
}

/// Round a hidden solution, at the heights 0 to 5 in turn; with one constant, which is empty, at height 0.
fn smaller(constants: usize) -> Family {
    let mut random = Random::new(112);
    let make = |number| {
        let height = number as u32 % 6;
        let question = hidden_question(&mut random, 4, constants, height, SMALLER_COUNTS);
        name_all(question)
    };
    family(
        &format!("heights 0 to 5, all of {constants} constants named"),
        (0..SMALLER_QUESTIONS).map(make),
    )
}

/// Constants that no clause names are put behind the others, one of height 5 first.
fn few_named(answer: &str, seed: u64, make: Make) -> Family {
    let mut random = Random::new(seed);
    let questions = repeat_with(|| {
        let mut question = make(&mut random, FEW, FEW_HEIGHT);
        question.constants.push(tree_of_number(1));
        while question.constants.len() < MOST_CONSTANTS {
            question.constants.push(random_tree(&mut random, 5));
        }
        question
    });
    family(
        &format!("height {FEW_HEIGHT}, 32 constants, {FEW} named, {answer}"),
        questions.take(QUESTIONS),
    )
}

#[cfg(test)]
mod tests {
    use super::{all, named, FEW, FEW_HEIGHT, QUESTIONS, SMALLER, SMALLER_QUESTIONS};
    use brute::question::{read, Question, MOST_CONSTANTS};
    use brute::single::decide;
    use brute::tree::Tree;

    fn questions(family: usize) -> Vec<Question> {
        let bytes = &all()[family].inputs;
        bytes.iter().map(|b| read(b).expect("accepted")).collect()
    }

    /// 32 constants, the tallest of height 5, and a yes to each question. An entailment has reason 0.
    #[test]
    fn constants_and_answers() {
        for family in 0..4 {
            let questions = questions(family);
            assert_eq!(questions.len(), QUESTIONS);
            for question in questions {
                assert_eq!(question.constants.len(), MOST_CONSTANTS);
                let tallest = question.constants.iter().map(Tree::height).max();
                assert_eq!(tallest, Some(5));
                assert_eq!(question.entailment, family % 2 == 1);
                let outcome = decide(&question);
                assert!(outcome.yes && outcome.reason == 0);
            }
        }
    }

    #[test]
    fn which_are_named() {
        for family in 0..2 {
            let all = questions(family);
            assert!(all.iter().all(|q| named(q).len() == MOST_CONSTANTS));
        }
        for family in 2..4 {
            for question in questions(family) {
                assert_eq!(named(&question), (0..FEW).collect());
                let heights = question.constants[..FEW].iter().map(|c| c.height());
                assert_eq!(heights.max(), Some(FEW_HEIGHT));
            }
        }
    }

    /// All constants are named, and the tallest has each height in turn; a single one has height 0.
    #[test]
    fn smaller_questions() {
        for (family, count) in (4..).zip(SMALLER) {
            let questions = questions(family);
            assert_eq!(questions.len(), SMALLER_QUESTIONS);
            for (number, question) in questions.iter().enumerate() {
                assert_eq!(named(question), (0..count).collect());
                let height = if count == 1 { 0 } else { number as u32 % 6 };
                let tallest = question.constants.iter().map(Tree::height).max();
                assert_eq!(tallest, Some(height));
                assert!(decide(question).yes);
            }
        }
    }
}
