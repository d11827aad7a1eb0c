//! The families of questions. Seeds are fixed: every run asks the same ones.

// With paths, since others/families has this file as a module too.
#[path = "families/constants.rs"]
mod constants;
#[path = "families/habit.rs"]
pub mod habit;
#[path = "families/policies.rs"]
mod policies;
#[path = "families/twelve.rs"]
mod twelve;

use brute::make::{
    entailment, hidden_question, largest, random_question, Change, Counts, Size, ALL_CLAUSES,
};
use brute::question::{
    write_in_order, Clause, Question, Relation, Term, MOST_CONSTANTS, MOST_DISEQUATIONS,
    MOST_POSITIVE, MOST_VARIABLES,
};
use brute::random::Random;
use brute::tree::{tree_of_number, Tree};
use brute::worked::{self, Worked};
use std::collections::BTreeSet;
use std::ops::Range;

pub struct Family {
    pub name: String,
    /// Questions, the rows and questions of src/judged.rs, the tree texts of src/texts.rs, or the numbers of src/numbers.rs.
    pub inputs: Vec<Vec<u8>>,
}

pub fn all() -> Vec<Family> {
    let mut families = vec![
        by_hand(
            "worked questions of SPEC 12, without policies",
            worked::WORKED,
        ),
        by_hand(
            "figure 1 of Le, Nguyen, Chin, Hobor, as entailments",
            worked::FIGURE_1,
        ),
        small_random(),
        hidden(),
        small_entailments(),
        largest_satisfiable(),
        largest_entailments(),
    ];
    families.extend(constants::all());
    families.extend(habit::all());
    families.extend(twelve::all());
    for shape in [Shape::Any, Shape::OnlyLast] {
        for own in 0..=MOST_VARIABLES {
            families.push(split(own, shape));
        }
    }
    families.push(split(0, Shape::Missed));
    families.push(by_hand(
        "worked questions of permission policies",
        worked::POLICIES,
    ));
    families.extend(policies::all());
    families
}

fn family(name: &str, questions: impl Iterator<Item = Question>) -> Family {
    Family {
        name: name.to_string(),
        inputs: questions
            .map(|question| write_in_order(&question))
            .collect(),
    }
}

/// The numbers of the constants that clauses name.
fn named(question: &Question) -> BTreeSet<usize> {
    let clauses = question.first.iter().chain(&question.second);
    let constant = |term| match term {
        Term::Constant(number) => Some(number),
        Term::Variable(_) => None,
    };
    let terms = clauses.flat_map(|clause| clause.terms());
    terms.filter_map(constant).collect()
}

fn by_hand(name: &str, worked: &[Worked]) -> Family {
    Family {
        name: name.to_string(),
        inputs: worked.iter().map(|w| worked::bytes(w.bytes)).collect(),
    }
}

fn small_random() -> Family {
    let size = Size {
        free: 3,
        own: 2,
        constants: 3,
        height: 3,
        positive: 4,
        disequations: 3,
        policies: false,
    };
    let mut random = Random::new(100);
    family(
        "small random, up to 5 variables",
        (0..500).map(|_| random_question(&mut random, &size)),
    )
}

fn hidden() -> Family {
    let mut random = Random::new(101);
    let mut make = || {
        let free = random.between(3, 6);
        let counts = Counts {
            positive: random.between(2, 6),
            disequations: random.between(1, 6),
            policies: false,
        };
        hidden_question(&mut random, free, 4, 3, counts)
    };
    family(
        "round a hidden solution, 3 to 6 variables",
        (0..200).map(|_| make()),
    )
}

fn small_entailments() -> Family {
    let counts = Counts {
        positive: 4,
        disequations: 2,
        policies: false,
    };
    let mut random = Random::new(102);
    let mut make = || {
        let clauses = (counts, counts);
        entailment(&mut random, (4, 2), (3, 2), clauses, Change::None)
    };
    family(
        "entailments that hold, 4 free and 2 own",
        (0..200).map(|_| make()),
    )
}

fn largest_satisfiable() -> Family {
    let mut random = Random::new(103);
    let counts = Counts {
        policies: false,
        ..ALL_CLAUSES
    };
    let mut make = || hidden_question(&mut random, MOST_VARIABLES, MOST_CONSTANTS, 5, counts);
    family(
        "12 variables, 64 + 31 clauses, height 5, satisfiable",
        (0..10).map(|_| make()),
    )
}

fn largest_entailments() -> Family {
    let mut random = Random::new(104);
    let mut make = |own| largest(&mut random, own, Change::None, false);
    family(
        "12 variables, 64 + 31 in each, height 5, entailed",
        (0..12).map(|round| make(round % 6)),
    )
}

/// What a worst case allows.
#[derive(Clone, Copy, PartialEq, Eq)]
enum Shape {
    /// All values, in both systems: every set of choices is full, and whatever is looked for among them is looked
    /// for in all.
    Any,
    /// The last values only, all full: the search for a choice comes to the last one before it finds any. The
    /// clauses that allow no other stand last, those of the variable that is compared first at the very end.
    OnlyLast,
    /// As the first shape, but the last disequation of the second can be had nowhere. The answer is no, with
    /// reason 3 and 30: the last search finds a solution, and it is shown.
    Missed,
}

/// Leaf i has digit k of i in the k-th of these, so that no two leaves look alike.
const DIGITS: [u32; 5] = [
    0xAAAA_AAAA,
    0xCCCC_CCCC,
    0xF0F0_F0F0,
    0xFF00_FF00,
    0xFFFF_0000,
];

/// The worst case of a split into free and own variables. The answer is yes with reason 0 (but for `Missed`), after
/// everything was looked at:
/// - no positive clause fails for a choice, or only the last ones do, so that none ends early; five of them name
///   constants by which all leaves differ;
/// - each disequation, of either system, holds in the last of the 32 leaves alone, and there with every choice. So it
///   is looked for in all leaves, with every choice and all own values;
/// - for each of the second's 31 a solution that lacks it is looked for through all leaves, with the first's 31 still
///   without a leaf, and fails in the last.
///
/// Which is dearest depends on the solver. One choice at a time, the second system costs the same in all splits, 2^12
/// pairs per leaf. With 64 pairs in a word it does too, 2^6 words. But the first system and the homes of its
/// disequations are sought among the free values alone, so that 12 free is dearest there: 31 times 31 times 31 searches
/// through 2^6 words.
fn split(own: usize, shape: Shape) -> Family {
    let free = MOST_VARIABLES - own;
    let shape_name = match shape {
        Shape::Any => "any values",
        Shape::OnlyLast => "only the last values",
        Shape::Missed => "reason 3 30",
    };
    let fixed = |variables| match shape {
        Shape::OnlyLast => variables,
        Shape::Any | Shape::Missed => 0..0,
    };
    let mut question = Question {
        entailment: true,
        free,
        own,
        constants: constants_of_split(),
        first: clauses_of_split(free, fixed(0..free)),
        second: clauses_of_split(MOST_VARIABLES, fixed(free..MOST_VARIABLES)),
    };
    if shape == Shape::Missed {
        let variable = Term::Variable(0);
        question.second.pop();
        question.second.push(Clause {
            relation: Relation::Equal(variable, variable),
            negated: true,
        });
    }
    Family {
        name: format!("worst case, {free} free, {own} own, {shape_name}"),
        inputs: vec![write_in_order(&question)],
    }
}

/// The empty share, the full one, the last leaf alone, those by which all leaves differ, and as many more as there may be.
pub fn constants_of_split() -> Vec<Tree> {
    let mut constants = vec![Tree::Empty, Tree::Full, tree_of_number(1 << 31)];
    constants.extend(DIGITS.map(tree_of_number));
    while constants.len() < MOST_CONSTANTS {
        constants.push(tree_of_number(0x1234_5678 + constants.len() as u32));
    }
    constants
}

/// 64 positive clauses that hold for every choice, but for the last ones, which make the variables `fixed` full; and
/// 31 disequations that hold in the last leaf alone, for every choice.
pub fn clauses_of_split(variables: usize, fixed: Range<usize>) -> Vec<Clause> {
    let (empty, full, last_leaf) = (Term::Constant(0), Term::Constant(1), Term::Constant(2));
    let clause = |relation, negated| Clause { relation, negated };
    let term = |number: usize| match variables {
        0 => full,
        _ => Term::Variable(number % variables),
    };
    let mut clauses = Vec::new();
    for number in 0..DIGITS.len() {
        let digit = Term::Constant(3 + number);
        clauses.push(clause(Relation::Equal(digit, digit), false));
    }
    for number in DIGITS.len()..MOST_POSITIVE - fixed.len() {
        let term = term(number);
        clauses.push(clause(Relation::Join(term, empty, term), false));
    }
    for variable in fixed.rev() {
        let variable = Term::Variable(variable);
        clauses.push(clause(Relation::Equal(variable, full), false));
    }
    for number in 0..MOST_DISEQUATIONS {
        // Not (v join the last leaf is v): undefined or another share there, and v elsewhere.
        let term = term(number);
        clauses.push(clause(Relation::Join(term, last_leaf, term), true));
    }
    clauses
}

#[cfg(test)]
mod tests {
    use super::{largest_entailments, largest_satisfiable, split, Shape};
    use brute::question::{read, Clause, Question, MOST_POSITIVE, MOST_VARIABLES};
    use brute::single::{constants_by_leaf, decide, holds_at_leaf};

    const OWN: [usize; 4] = [0, 1, 6, MOST_VARIABLES];

    fn question(own: usize, shape: Shape) -> Question {
        read(&split(own, shape).inputs[0]).expect("accepted")
    }

    /// The answers are those that are told.
    #[test]
    fn answers() {
        for own in OWN {
            for shape in [Shape::Any, Shape::OnlyLast] {
                let outcome = decide(&question(own, shape));
                assert!(outcome.yes && outcome.reason == 0);
            }
        }
        let outcome = decide(&question(0, Shape::Missed));
        assert_eq!((outcome.reason, outcome.disequation), (3, 30));
    }

    /// The largest questions name a constant of height 5.
    #[test]
    fn heights() {
        for family in [largest_satisfiable(), largest_entailments()] {
            for bytes in &family.inputs {
                assert_eq!(read(bytes).expect("accepted").height(), 5);
            }
        }
    }

    /// Each clause of a system, where it holds: whether in no choice, in all, or else, at each leaf.
    fn looks(question: &Question, clause: &Clause, choices: &[Vec<bool>]) -> Vec<Option<bool>> {
        let by_leaf = constants_by_leaf(question, question.height());
        let look = |constants: &Vec<bool>| {
            let mut held = choices
                .iter()
                .map(|choice| holds_at_leaf(clause, choice, constants));
            let first = held.next()?;
            held.all(|other| other == first).then_some(first)
        };
        by_leaf.iter().map(look).collect()
    }

    /// No search ends early: a disequation holds with no choice before the last leaf and with all there; a positive
    /// clause holds always, but for the last ones of the second shape, which the last choice alone meets.
    #[test]
    fn no_search_ends_early() {
        let choices: Vec<Vec<bool>> = (0..1 << MOST_VARIABLES)
            .map(|number| (0..MOST_VARIABLES).map(|v| number >> v & 1 == 1).collect())
            .collect();
        let mut only_last = vec![Some(false); 32];
        only_last[31] = Some(true);
        for own in OWN {
            for shape in [Shape::Any, Shape::OnlyLast] {
                let question = question(own, shape);
                for (system, variables) in
                    [(&question.first, question.free), (&question.second, own)]
                {
                    let fixed = if shape == Shape::OnlyLast {
                        variables
                    } else {
                        0
                    };
                    let always = MOST_POSITIVE - fixed;
                    for (number, clause) in system.iter().enumerate() {
                        let due = match number {
                            n if n < always => vec![Some(true); 32],
                            n if n < MOST_POSITIVE => vec![None; 32],
                            _ => only_last.clone(),
                        };
                        assert_eq!(looks(&question, clause, &choices), due);
                    }
                    let constants = &constants_by_leaf(&question, 5)[0];
                    let mut positive = system[always..MOST_POSITIVE].iter();
                    assert!(positive.all(|c| holds_at_leaf(c, &[true; MOST_VARIABLES], constants)));
                }
            }
        }
    }
}
