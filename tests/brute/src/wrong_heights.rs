//! Wrong heights: which constants count for h is misread, one word at a time. On many questions each slip gives another result, and the comparison with
//! the library notices. Where h is too low, a slip reads each constant at the first of the leaves below a leaf of that height.

use crate::asking::Asker;
use crate::due::{Answered, Decided};
use crate::fixed::{AsWritten, Asked, Words};
use crate::misread::given;
use crate::named::some_among;
use crate::question::{operand_count, read, Clause, Question, Relation, Term, MOST_CONSTANTS};
use crate::report::{Family, Report};
use crate::single::{decide, decide_at};
use crate::slips::enough;
use crate::tree::{Tree, CONSTANT_HEIGHT};
use crate::worked;

pub const FAMILIES: &[Family] = &[("slips in which constants count", slips_noticed)];

/// What h is taken for, by the question and its bytes.
type Slip = fn(&Question, &[u8]) -> u32;

const SLIPS: [(&str, Slip); 18] = [
    ("all that are defined", |question, _| {
        tallest_that(question, |_| true)
    }),
    ("none", |_, _| 0),
    ("the first system's alone", |question, _| {
        of_clauses(question, &question.first, |_| true)
    }),
    ("the second system's alone", |question, _| {
        of_clauses(question, &question.second, |_| true)
    }),
    ("those of positive clauses alone", |question, _| {
        of_all(question, |clause| !clause.negated)
    }),
    ("those of disequations alone", |question, _| {
        of_all(question, |clause| clause.negated)
    }),
    ("all but those of permission policies", |question, _| {
        of_all(question, |clause| !clause.relation.is_policy())
    }),
    ("all but those of joins", |question, _| {
        of_all(question, |clause| {
            !matches!(clause.relation, Relation::Join(..))
        })
    }),
    ("the first term of each clause", |question, _| {
        of_terms(question, |terms| terms[..1].to_vec())
    }),
    ("the last term of each clause", |question, _| {
        of_terms(question, |terms| terms[terms.len() - 1..].to_vec())
    }),
    ("the byte behind an equality too", |question, bytes| {
        with_bytes_behind(question, bytes, &[0x12, 0x13, 0x22, 0x23])
    }),
    (
        "the byte behind each clause of one term or two, too",
        |question, bytes| {
            let short = [0x30, 0x31, 0x32, 0x38, 0x39, 0x3A, 0x12, 0x13, 0x22, 0x23];
            with_bytes_behind(question, bytes, &short)
        },
    ),
    (
        "those with the number of a variable that is named, too",
        |question, _| {
            let like = |number| names(question, Term::Variable(number));
            question.height().max(tallest_that(question, like))
        },
    ),
    ("all up to the last that is named", |question, _| {
        let last = named(question).pop();
        tallest_that(question, |number| Some(number) <= last)
    }),
    ("the first that is named, alone", |question, _| {
        let first = named(question).first().copied();
        tallest_that(question, |number| Some(number) == first)
    }),
    ("the last that is named, alone", |question, _| {
        let last = named(question).pop();
        tallest_that(question, |number| Some(number) == last)
    }),
    ("all that are named but constant 0", |question, _| {
        all_named_but(question, 0)
    }),
    ("all that are named but constant 31", |question, _| {
        all_named_but(question, MOST_CONSTANTS - 1)
    }),
];

/// The height of the tallest constant with such a number.
fn tallest_that(question: &Question, counts: impl Fn(usize) -> bool) -> u32 {
    let numbers = (0..question.constants.len()).filter(|number| counts(*number));
    let terms: Vec<Term> = numbers.map(Term::Constant).collect();
    question.tallest(&terms)
}

/// That of the tallest that such clauses of these name.
fn of_clauses(question: &Question, clauses: &[Clause], counts: impl Fn(&Clause) -> bool) -> u32 {
    let counted = clauses.iter().filter(|clause| counts(clause));
    let heights = counted.map(|clause| question.tallest(&clause.terms()));
    heights.max().unwrap_or(0)
}

fn all_clauses(question: &Question) -> Vec<Clause> {
    [&question.first[..], &question.second].concat()
}

fn of_all(question: &Question, counts: impl Fn(&Clause) -> bool) -> u32 {
    of_clauses(question, &all_clauses(question), counts)
}

/// That of the tallest among these terms of each clause.
fn of_terms(question: &Question, which: fn(&[Term]) -> Vec<Term>) -> u32 {
    let clauses = all_clauses(question);
    let terms = clauses.iter().flat_map(|clause| which(&clause.terms()));
    question.tallest(&terms.collect::<Vec<Term>>())
}

fn names(question: &Question, term: Term) -> bool {
    let clauses = all_clauses(question);
    clauses.iter().any(|clause| clause.terms().contains(&term))
}

/// The numbers of the constants that some clause names.
fn named(question: &Question) -> Vec<usize> {
    let numbers = 0..question.constants.len();
    numbers
        .filter(|number| names(question, Term::Constant(*number)))
        .collect()
}

fn all_named_but(question: &Question, left_out: usize) -> u32 {
    let named = named(question);
    tallest_that(question, |number| {
        number != left_out && named.contains(&number)
    })
}

/// That of the tallest that is named, or whose term is the byte behind one of these clauses.
fn with_bytes_behind(question: &Question, bytes: &[u8], commands: &[u8]) -> u32 {
    let mut tallest = question.height();
    let mut at = 4;
    while let Some(command) = bytes.get(at) {
        at += 1 + operand_count(*command).expect("a known command");
        let behind = bytes.get(at).and_then(|byte| byte.checked_sub(0x20));
        let number = behind.map_or(MOST_CONSTANTS, usize::from);
        if commands.contains(command) && number < question.constants.len() {
            tallest = tallest.max(question.constants[number].height());
        }
    }
    tallest
}

/// A constant as it is read at the leaves of a height.
fn read_at(constant: &Tree, height: u32) -> Tree {
    let leaves = constant.leaves(CONSTANT_HEIGHT).into_iter();
    let below = 1 << (CONSTANT_HEIGHT - height);
    Tree::from_leaves(&leaves.step_by(below).collect::<Vec<bool>>())
}

/// What is given if h is taken for this.
fn answered_at(question: &Question, height: u32) -> Decided {
    let constants = question.constants.iter();
    let read = Question {
        constants: constants.map(|one| read_at(one, height)).collect(),
        ..question.clone()
    };
    let mut outcome = decide_at(&read, height);
    let shows = outcome.shows(&read);
    if shows {
        outcome.height += height - read.height();
    }
    Decided::Answered(Answered {
        rows: shows.then(|| AsWritten.rows(&Asked::at(&read, &outcome, height))),
        question: question.clone(),
        outcome,
    })
}

/// If all constants that are defined count, verdict, reason and disequation number are the right ones: only the height given may be another.
fn verdict_stays(report: &mut Report, question: &Question) {
    let tallest = tallest_that(question, |_| true);
    let [right, by_all] = [decide(question), decide_at(question, tallest)]
        .map(|outcome| (outcome.yes, outcome.reason, outcome.disequation));
    report.same_apart("the verdict if all constants count", by_all, right);
}

/// How often each slip changed what is given.
#[derive(Default)]
pub struct Changed([usize; SLIPS.len()]);

impl Changed {
    /// What each slip gives that gives something else than is due.
    fn note(&mut self, question: &Question, bytes: &[u8]) -> Vec<Decided> {
        let height = question.height();
        let right = given(&answered_at(question, height));
        let mut wrong = Vec::new();
        for (count, (_, slip)) in self.0.iter_mut().zip(SLIPS) {
            let taken_for = slip(question, bytes);
            if taken_for == height {
                continue;
            }
            let answered = answered_at(question, taken_for);
            if given(&answered) != right {
                *count += 1;
                wrong.push(answered);
            }
        }
        wrong
    }

    fn enough(&self, report: &mut Report, least: usize) {
        let names = SLIPS.map(|(name, _)| name);
        enough(report, "results", names, self.0, least);
    }
}

/// Each slip gives something else for one of the questions that were worked for it.
pub fn each_matters(report: &mut Report) {
    let mut changed = Changed::default();
    for worked in worked::NAMED {
        let bytes = worked::bytes(worked.bytes);
        let question = read(&bytes).expect("a worked question");
        verdict_stays(report, &question);
        changed.note(&question, &bytes);
    }
    changed.enough(report, 1);
}

/// The library is asked each question once for what is due, and once for each slip that gives something else, which must be found wrong.
fn slips_noticed(report: &mut Report) {
    let mut asker = Asker::new(report);
    let mut changed = Changed::default();
    for _ in 0..asker.report.rounds(3_000) {
        let question = some_among(&mut asker.random);
        let bytes = asker.mixed(&question);
        let lengths = asker.enough();
        asker.bytes(&bytes, lengths);
        verdict_stays(asker.report, &question);
        for wrong in changed.note(&question, &bytes) {
            asker.notices(&bytes, &wrong);
        }
    }
    changed.enough(asker.report, 10);
    asker.seen.kind_0(asker.report, 100);
    asker.seen.kind_1(asker.report, 100);
}
