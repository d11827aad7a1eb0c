//! A list of constants in front of every question: 32, of which clauses name two. Beside it the same
//! questions with the two alone.

use super::{family, named, Family};
use brute::make::{
    entailment, hidden_question, random_leaves, random_tree, Change, Counts, ALL_CLAUSES,
};
use brute::question::{disequations, Clause, Question, Relation, Term, MOST_CONSTANTS};
use brute::random::Random;
use brute::tree::{tree_of_number, Tree};
use std::iter::repeat_with;

/// What the names of the families say; but for this, those of a pair are the same.
pub const LIST: &str = "32 constants, 2 named: ";
pub const ALONE: &str = "the 2 alone: ";

/// The numbers of the two in the list, and how many more it has.
const NUMBERS: [usize; 2] = [7, 29];
pub const MORE: usize = MOST_CONSTANTS - NUMBERS.len();

/// How large the questions are.
#[derive(Clone, Copy)]
struct Size {
    name: &'static str,
    questions: usize,
    free: usize,
    own: usize,
    height: u32,
    counts: Counts,
}

/// One variable, and one clause in each system.
const SMALLEST: Size = Size {
    name: "smallest",
    questions: 100,
    free: 1,
    own: 0,
    height: 3,
    counts: Counts {
        positive: 1,
        disequations: 0,
        policies: false,
    },
};

const TYPICAL: Size = Size {
    name: "typical",
    questions: 100,
    free: 4,
    own: 2,
    height: 3,
    counts: Counts {
        positive: 4,
        disequations: 2,
        policies: false,
    },
};

const LARGEST: Size = Size {
    name: "largest",
    questions: 10,
    free: 9,
    own: 3,
    height: 5,
    counts: Counts {
        policies: false,
        ..ALL_CLAUSES
    },
};

/// Makes a question with two constants.
type Make = fn(&mut Random, Size) -> Question;

/// A family with the list, then the same with the two alone, and so on.
pub fn all() -> Vec<Family> {
    let made: [(Size, &str, Make); 8] = [
        (SMALLEST, "satisfiable", joined),
        (SMALLEST, "not entailed", other_share),
        (TYPICAL, "satisfiable", satisfiable),
        (TYPICAL, "entailed", entailed),
        (TYPICAL, "not entailed", not_entailed),
        (LARGEST, "satisfiable", satisfiable),
        (LARGEST, "entailed", entailed),
        (LARGEST, "not entailed", not_entailed),
    ];
    let both = made.map(|(size, answer, make)| both(size, answer, make));
    both.into_iter().flatten().collect()
}

fn both(size: Size, answer: &str, make: Make) -> [Family; 2] {
    let mut random = Random::new(111);
    let list: Vec<Tree> = list_of_constants(&mut random);
    let questions = repeat_with(|| make(&mut random, size));
    let with_two = questions.filter(|question| named(question).len() == NUMBERS.len());
    let alone: Vec<Question> = with_two.take(size.questions).collect();
    let name = |start| format!("{start}{}, {answer}", size.name);
    [
        family(&name(LIST), alone.iter().map(|q| behind(&list, q))),
        family(&name(ALONE), alone.iter().cloned()),
    ]
}

/// Constants of every height, one of height 5 first.
fn list_of_constants(random: &mut Random) -> Vec<Tree> {
    let mut list = vec![tree_of_number(1)];
    list.resize_with(NUMBERS.len() + MORE, || random_tree(random, 5));
    list
}

/// The question behind the list: its two constants are among those, and no clause names another.
fn behind(list: &[Tree], question: &Question) -> Question {
    let mut question = question.clone();
    let alone = std::mem::replace(&mut question.constants, list.to_vec());
    for (number, constant) in NUMBERS.into_iter().zip(alone) {
        question.constants[number] = constant;
    }
    for clause in question.first.iter_mut().chain(&mut question.second) {
        clause.relation = clause.relation.with(|term| match term {
            Term::Constant(number) => Term::Constant(NUMBERS[number]),
            Term::Variable(_) => term,
        });
    }
    question
}

fn positive(relation: Relation) -> Clause {
    Clause {
        relation,
        negated: false,
    }
}

/// Two constants, the one inside the other, and less than it.
fn inside(random: &mut Random, height: u32) -> Vec<Tree> {
    loop {
        let [one, more] = [(); 2].map(|()| random_leaves(random, height));
        if one | more != one {
            return [one, one | more].map(tree_of_number).to_vec();
        }
    }
}

/// v0 join the one constant is the other.
fn joined(random: &mut Random, size: Size) -> Question {
    let (one, other) = (Term::Constant(0), Term::Constant(1));
    Question {
        free: size.free,
        constants: inside(random, size.height),
        first: vec![positive(Relation::Join(Term::Variable(0), one, other))],
        ..Question::default()
    }
}

/// v0 is the one constant; entails: v0 is the other.
fn other_share(random: &mut Random, size: Size) -> Question {
    let is = |number| Relation::Equal(Term::Variable(0), Term::Constant(number));
    Question {
        entailment: true,
        free: size.free,
        constants: inside(random, size.height),
        first: vec![positive(is(0))],
        second: vec![positive(is(1))],
        ..Question::default()
    }
}

fn satisfiable(random: &mut Random, size: Size) -> Question {
    let free = size.free + size.own;
    hidden_question(random, free, NUMBERS.len(), size.height, size.counts)
}

/// An entailment that holds, with so many clauses in each system.
fn holds(random: &mut Random, size: Size, second: Counts) -> Question {
    let variables = (size.free, size.own);
    let constants = (NUMBERS.len(), size.height);
    let clauses = (size.counts, second);
    entailment(random, variables, constants, clauses, Change::None)
}

fn entailed(random: &mut Random, size: Size) -> Question {
    holds(random, size, size.counts)
}

/// The last clause of the second asks for what the first denies.
fn not_entailed(random: &mut Random, size: Size) -> Question {
    let mut second = size.counts;
    second.positive -= 1;
    let mut question = holds(random, size, second);
    let denied = disequations(&question.first).into_iter().next();
    let asked = denied.map(|clause| positive(clause.relation));
    question.second.extend(asked);
    question
}

#[cfg(test)]
mod tests {
    use super::{all, Size, ALONE, LARGEST, LIST, NUMBERS, SMALLEST, TYPICAL};
    use crate::families::{named, Family};
    use brute::question::{read, Question, Term, MOST_CONSTANTS};
    use brute::single::decide;

    fn questions(family: &Family) -> Vec<Question> {
        let read = |bytes: &Vec<u8>| read(bytes).expect("accepted");
        family.inputs.iter().map(read).collect()
    }

    /// The tallest of the constants that clauses name.
    fn height(question: &Question) -> Option<u32> {
        let height = |number: usize| question.constants[number].height();
        named(question).into_iter().map(height).max()
    }

    fn size_of(family: &Family) -> Size {
        let mut sizes = [SMALLEST, TYPICAL, LARGEST].into_iter();
        let size = sizes.find(|size| family.name.contains(size.name));
        size.expect("a family says its size")
    }

    /// There are as many questions as the size tells, and those that are not the smallest have its height.
    #[test]
    fn counts_and_heights() {
        for family in all() {
            let size = size_of(&family);
            assert_eq!(family.inputs.len(), size.questions, "{}", family.name);
            for question in questions(&family) {
                let tall = size.name == SMALLEST.name || question.height() == size.height;
                assert!(tall, "{}", family.name);
            }
        }
    }

    /// The families go by pairs: 32 constants, of which two are named and one that is not has height 5; and two, both named.
    #[test]
    fn which_are_named() {
        for pair in all().chunks(2) {
            assert_eq!(pair[0].name.replace(LIST, ALONE), pair[1].name);
            for question in questions(&pair[0]) {
                assert_eq!(question.constants.len(), MOST_CONSTANTS);
                assert!(named(&question).into_iter().eq(NUMBERS));
                assert_eq!(question.constants[0].height(), 5);
            }
            for question in questions(&pair[1]) {
                assert_eq!(question.constants.len(), NUMBERS.len());
                assert_eq!(named(&question).len(), NUMBERS.len());
            }
        }
    }

    /// A question with the list, but for the constants that it does not name, is the one with the two alone.
    #[test]
    fn the_same_is_asked() {
        for pair in all().chunks(2) {
            for (mut list, alone) in questions(&pair[0]).into_iter().zip(questions(&pair[1])) {
                assert_eq!(height(&list), height(&alone));
                list.constants = NUMBERS.map(|n| list.constants[n].clone()).to_vec();
                for clause in list.first.iter_mut().chain(&mut list.second) {
                    clause.relation = clause.relation.with(|term| match term {
                        Term::Constant(number) if number == NUMBERS[0] => Term::Constant(0),
                        Term::Constant(_) => Term::Constant(1),
                        Term::Variable(_) => term,
                    });
                }
                assert_eq!(list, alone);
            }
        }
    }

    /// The answers are those that the names tell.
    #[test]
    fn answers() {
        for family in all() {
            let due = match family.name.rsplit(", ").next() {
                Some("not entailed") => (false, 2),
                _ => (true, 0),
            };
            for question in questions(&family) {
                let outcome = decide(&question);
                assert_eq!((outcome.yes, outcome.reason), due, "{}", family.name);
            }
        }
    }
}
