//! The fixed solution (SPEC 4.5), made by the words that fix it:
//!
//! "The solution shown is fixed. The constants that clauses name are unfolded to height h, and leaves are those of height h.
//! Each disequation of the first system goes to the leftmost leaf where it and the first system's positive clauses can be met
//! together. Below a leaf stand 2^(W-h) sub-leaves, W being the height given. From the left they hold the leaf's disequations in question order, then nothing more; every sub-leaf meets the
//! first system's positive clauses. Each carries the least choice of values, variable 0 compared first, empty before full. For
//! reason 2, the leftmost leaf with a choice that leaves the second system's positive clauses unmet carries the least such choice
//! before its disequations. For reason 3 only choices count, in every leaf, beside which no own values meet the second system's
//! positive clauses and the named disequation together. No result is undecided any longer."
//!
//! `Words` has a function for each sentence, in this order. `slips` misreads one at a time.

use crate::question::{split, Clause, Question, Split, MOST_VARIABLES};
use crate::single::{beside, constants_by_leaf, holds_at_leaf, Beside, Outcome};
use crate::tree::{bytes_of_leaves, ROW_HEIGHT};

/// A value for each free variable.
pub type Choice = Vec<bool>;

/// A question with an answer that shows a solution, and what is looked up again and again.
pub struct Asked<'a> {
    question: &'a Question,
    outcome: &'a Outcome,
    /// What h is.
    height: u32,
    first: Split,
    second: Split,
    /// All choices, variable 0 being the lowest digit: the least is not the first.
    choices: Vec<Choice>,
}

impl<'a> Asked<'a> {
    pub fn new(question: &'a Question, outcome: &'a Outcome) -> Asked<'a> {
        Asked::at(question, outcome, question.height())
    }

    /// The same where h is taken for this.
    pub fn at(question: &'a Question, outcome: &'a Outcome, height: u32) -> Asked<'a> {
        let choice = |number: usize| (0..question.free).map(|v| number >> v & 1 == 1).collect();
        Asked {
            question,
            outcome,
            height,
            first: split(&question.first),
            second: split(&question.second),
            choices: (0..1 << question.free).map(choice).collect(),
        }
    }

    fn beside(&self, choice: &Choice, constants: &[bool]) -> Beside {
        beside(&self.second, self.question.own, choice, constants)
    }
}

/// A leaf of the unfolded question, and the choices that may stand below it.
pub struct Leaf<'a> {
    asked: &'a Asked<'a>,
    constants: Vec<bool>,
    choices: Vec<&'a Choice>,
}

/// What a sub-leaf holds.
#[derive(Clone, Copy, Debug, PartialEq, Eq)]
pub enum Held {
    /// This disequation of the first system.
    Disequation(Clause),
    /// That the second system's positive clauses are left unmet.
    Unmet,
    Nothing,
}

impl<'a> Leaf<'a> {
    fn meets(&self, held: Held, choice: &Choice) -> bool {
        match held {
            Held::Disequation(clause) => holds_at_leaf(&clause, choice, &self.constants),
            Held::Unmet => !self.asked.beside(choice, &self.constants).met,
            Held::Nothing => true,
        }
    }

    /// Whether this can be met here, together with the first system's positive clauses.
    pub fn can_meet(&self, held: Held) -> bool {
        self.choices.iter().any(|choice| self.meets(held, choice))
    }

    /// All choices that meet it.
    fn meeting(&self, held: Held) -> Vec<&'a Choice> {
        let mut choices = self.choices.clone();
        choices.retain(|choice| self.meets(held, choice));
        choices
    }
}

/// The sentences.
pub trait Words {
    /// "The solution shown is fixed."
    fn rows(&self, asked: &Asked) -> Vec<u8> {
        let leaves = self.unfolded(asked);
        let disequations = asked.first.disequations.iter();
        let placed: Vec<(usize, Held)> = disequations
            .map(|clause| Held::Disequation(*clause))
            .map(|held| (self.leftmost(&leaves, held), held))
            .collect();
        let mut held: Vec<Vec<Held>> = (0..leaves.len())
            .map(|leaf| self.in_order(&placed, leaf))
            .collect();
        if asked.outcome.reason == 2 {
            self.reason_2(&leaves, &mut held);
        }
        let each = leaves.iter().zip(&held);
        let carried: Vec<&Choice> = each
            .flat_map(|(leaf, held)| self.below(leaf, held))
            .collect();
        rows_of(&carried)
    }

    /// "The constants that clauses name are unfolded to height h, and leaves are those of height h."
    fn unfolded<'a>(&self, asked: &'a Asked<'a>) -> Vec<Leaf<'a>> {
        let by_leaf = constants_by_leaf(asked.question, asked.height);
        let leaf = |constants: Vec<bool>| {
            let mut choices: Vec<&Choice> = asked.choices.iter().collect();
            choices.retain(|choice| self.meets_first(asked, choice, &constants));
            choices.retain(|choice| self.reason_3(asked, choice, &constants));
            Leaf {
                asked,
                constants,
                choices,
            }
        };
        by_leaf.into_iter().map(leaf).collect()
    }

    /// "Each disequation of the first system goes to the leftmost leaf where it and the first system's positive clauses can be
    /// met together."
    fn leftmost(&self, leaves: &[Leaf], held: Held) -> usize {
        let leftmost = leaves.iter().position(|leaf| leaf.can_meet(held));
        leftmost.expect("it can be met at some leaf")
    }

    /// "Below a leaf stand 2^(W-h) sub-leaves, W being the height given."
    fn below<'a>(&self, leaf: &Leaf<'a>, held: &[Held]) -> Vec<&'a Choice> {
        let sub_leaves = 1 << (leaf.asked.outcome.height - leaf.asked.height);
        assert!(held.len() <= sub_leaves, "a leaf has too few sub-leaves");
        let carried = |held: &Held| self.least(leaf.meeting(*held));
        let mut choices: Vec<&Choice> = held.iter().map(carried).collect();
        choices.resize(sub_leaves, carried(&self.then(held)));
        choices
    }

    /// "From the left they hold the leaf's disequations in question order, ..."
    fn in_order(&self, placed: &[(usize, Held)], leaf: usize) -> Vec<Held> {
        let here = placed.iter().filter(|(at, _)| *at == leaf);
        here.map(|(_, held)| *held).collect()
    }

    /// "... then nothing more; ..."
    fn then(&self, _held: &[Held]) -> Held {
        Held::Nothing
    }

    /// "... every sub-leaf meets the first system's positive clauses."
    fn meets_first(&self, asked: &Asked, choice: &Choice, constants: &[bool]) -> bool {
        let mut positive = asked.first.positive.iter();
        positive.all(|clause| holds_at_leaf(clause, choice, constants))
    }

    /// "Each carries the least choice of values, variable 0 compared first, empty before full." Lists are compared by the first
    /// place where they differ, and empty, which is false, is less than full.
    fn least<'a>(&self, choices: Vec<&'a Choice>) -> &'a Choice {
        let least = choices.into_iter().min();
        least.expect("there is such a choice")
    }

    /// "For reason 2, the leftmost leaf with a choice that leaves the second system's positive clauses unmet carries the least
    /// such choice before its disequations."
    fn reason_2(&self, leaves: &[Leaf], held: &mut [Vec<Held>]) {
        let leaf = self.leftmost(leaves, Held::Unmet);
        held[leaf].insert(0, Held::Unmet);
    }

    /// "For reason 3 only choices count, in every leaf, beside which no own values meet the second system's positive clauses
    /// and the named disequation together."
    fn reason_3(&self, asked: &Asked, choice: &Choice, constants: &[bool]) -> bool {
        let named = asked.outcome.disequation;
        asked.outcome.reason != 3 || !asked.beside(choice, constants).had[named]
    }
}

/// No sentence misread.
pub struct AsWritten;

impl Words for AsWritten {}

/// "No result is undecided any longer." The 12 rows of 128 bytes that are shown with this answer, if any are.
pub fn rows(question: &Question, outcome: &Outcome) -> Option<Vec<u8>> {
    outcome
        .shows(question)
        .then(|| AsWritten.rows(&Asked::new(question, outcome)))
}

/// Row v has the values of variable v at each sub-leaf, unfolded to height 10; it is zero if that is no free variable.
fn rows_of(carried: &[&Choice]) -> Vec<u8> {
    let times = (1 << ROW_HEIGHT) / carried.len();
    let mut rows = Vec::new();
    for variable in 0..MOST_VARIABLES {
        let values = carried
            .iter()
            .map(|choice| choice.get(variable) == Some(&true));
        let leaves: Vec<bool> = values
            .flat_map(|full| std::iter::repeat_n(full, times))
            .collect();
        rows.extend(bytes_of_leaves(&leaves));
    }
    rows
}
