//! A family of the judge alone: rows that are wrong in a way known beforehand.

use crate::fixed;
use crate::judge::{holds, judge, trees_of_rows, Flaw, ANSWER_BYTES, ROW_BYTES};
use crate::make::{random_question, Size};
use crate::question::{disequations, read, Question};
use crate::report::{Family, Report};
use crate::single::{constants_by_leaf, decide, holds_at_leaf, Outcome};
use crate::tree::leaves_of_bytes;
use crate::worked;

pub const FAMILIES: &[Family] = &[("the judge turns wrong rows away", judge_rejects)];

/// The judge turns away rows that are wrong in a way known beforehand.
fn judge_rejects(report: &mut Report) {
    let question = |text| read(&worked::bytes(text)).expect("a worked question");
    let three = question(worked::THREE_NOT_EMPTY);
    let outcome = decide(&three);
    let rows = fixed::rows(&three, &outcome).expect("a solution is shown");
    report.same_apart("right rows", judge(&three, &outcome, &rows), Ok(()));

    let mut foreign = rows.clone();
    foreign[ANSWER_BYTES - 1] = 0x80;
    let flaw = Err(Flaw::ForeignRow(11));
    report.same_apart("foreign row", judge(&three, &outcome, &foreign), flaw);

    let lower = Outcome {
        height: 1,
        ..outcome
    };
    let flaw = Err(Flaw::TooTall(0));
    report.same_apart("too tall", judge(&three, &lower, &rows), flaw);

    let empty = vec![0; ANSWER_BYTES];
    let flaw = Err(Flaw::Broken(1));
    report.same_apart("empty rows", judge(&three, &outcome, &empty), flaw);

    let mut overlap = rows.clone();
    overlap.copy_within(2 * ROW_BYTES..3 * ROW_BYTES, 0);
    let flaw = Err(Flaw::Broken(0));
    report.same_apart("overlap", judge(&three, &outcome, &overlap), flaw);

    extending_rows(
        report,
        &question("01 01 02 00 | F E | 10 00 01 20 | 23 00 21 | 00"),
    );
    flipped_rows(report);
}

fn extending_rows(report: &mut Report, entailment: &Question) {
    let outcome = decide(entailment);
    let mut rows = vec![0; ANSWER_BYTES];
    rows[..ROW_BYTES].fill(0xFF);
    let flaw = Err(Flaw::WrongReason);
    report.same_apart("rows that extend", judge(entailment, &outcome, &rows), flaw);
    let rows = fixed::rows(entailment, &outcome).expect("a solution is shown");
    let other = Outcome {
        reason: 2,
        ..outcome
    };
    report.same_apart("another reason", judge(entailment, &other, &rows), flaw);
}

/// Rows with one bit changed are judged as the clauses say, read leaf by leaf.
fn flipped_rows(report: &mut Report) {
    let size = Size {
        free: 4,
        own: 0,
        constants: 3,
        height: 5,
        positive: 2,
        disequations: 4,
        policies: true,
    };
    let mut random = report.random();
    let (mut left, mut broken) = (report.rounds(800), 0);
    while left > 0 {
        let question = random_question(&mut random, &size);
        let outcome = decide(&question);
        let (Some(mut rows), 1..) = (fixed::rows(&question, &outcome), question.free) else {
            continue;
        };
        left -= 1;
        rows[random.below(question.free * ROW_BYTES)] ^= 1 << random.below(8);
        let solves = solves_leaf_by_leaf(&question, &rows);
        broken += usize::from(!solves);
        let trees = trees_of_rows(&question, &rows);
        let held = question.first.iter().all(|c| holds(&question, c, &trees));
        report.same_apart("changed rows solve", held, solves);
    }
    report.same_apart("some changed rows break a clause", broken > 100, true);
}

fn solves_leaf_by_leaf(question: &Question, rows: &[u8]) -> bool {
    let rows: Vec<Vec<bool>> = rows.chunks(ROW_BYTES).map(leaves_of_bytes).collect();
    let constants = constants_by_leaf(question, 10);
    let holds_at = |clause, leaf: usize| {
        let choice: Vec<bool> = rows.iter().map(|row| row[leaf]).collect();
        holds_at_leaf(clause, &choice, &constants[leaf])
    };
    let negated = disequations(&question.first);
    let some = |c| (0..constants.len()).any(|leaf| holds_at(c, leaf));
    let every = |c| (0..constants.len()).all(|leaf| holds_at(c, leaf));
    let positive = question.first.iter().filter(|c| !c.negated);
    positive.into_iter().all(every) && negated.iter().all(some)
}
