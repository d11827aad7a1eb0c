//! Families of judging: rows that someone hands over, of questions of every sort. What is due comes from the leaves; where own trees can be tried, whole
//! trees must say the same.

use crate::handed::{judged, packed, Failing, Judgement, Way};
use crate::handed_by_hand::{self, rows};
use crate::handed_rows::{any, changed, faulty, mixture, own_parts, some};
use crate::judge::{ANSWER_BYTES, ROW_BYTES};
use crate::judger::Judger;
use crate::make::{entailment, random_question, Counts, Size, CHANGES};
use crate::question::{read, Question, MOST_VARIABLES};
use crate::report::{Family, Report};
use crate::seen::enough;
use crate::slips::some_question;
use crate::tree::{row_of_tree, ROW_HEIGHT};
use crate::whole::all_trees;
use crate::worked;
use crate::wrong_judges::needs_taller;

pub const FAMILIES: &[Family] = &[
    ("handed rows worked by hand", worked_rows),
    ("all low rows of small questions", low_rows),
    ("low rows beside taller own trees", taller_own_trees),
    ("changed rows of random questions", changed_rows),
    ("random rows that meet positive clauses", mixtures),
    ("rows of 12 variables", rows_of_twelve),
];

/// The judgement that a number worked by hand tells.
fn judgement(number: u64) -> Judgement {
    match number.to_le_bytes() {
        [1, 0, 0, 0, 0, 0, 0, 0] => Judgement::Accepted,
        [2, 0, 0, 0, clause, way, low, high] => {
            let leaf = usize::from(u16::from_le_bytes([low, high]));
            let ways = [Way::Overlap, Way::Surplus, Way::Shortfall];
            let way = ways.into_iter().find(|one| *one as u8 == way);
            let failing = way.map(|way| Failing { way, leaf });
            Judgement::Broken(usize::from(clause), failing)
        }
        [3, 0, 0, 0, 0, 0, 0, 0] => Judgement::Extends,
        _ => panic!("{number:X} tells no judgement"),
    }
}

fn worked_rows(report: &mut Report) {
    let mut judger = Judger::new(report);
    for (name, question, texts, number) in handed_by_hand::all() {
        let question = worked::bytes(question);
        let rows = rows(texts);
        let due = Ok(judgement(*number));
        judger.report.same_apart(name, packed(due), *number);
        judger.known(&question, &rows, due);
        let free = read(&question).map(|question| question.free);
        judger.report.same_apart(name, free, Ok(texts.len()));
    }
    for worked in worked::all() {
        if let Some(texts) = worked.shown {
            let question = worked::bytes(worked.bytes);
            judger.known(&question, &rows(texts), Ok(Judgement::Accepted));
        }
    }
    refused_rows(&mut judger);
    judger.seen_all(8);
    judger.seen_by_trees(10);
}

/// Refusals worked by hand, and what is nearly refused.
fn refused_rows(judger: &mut Judger) {
    for (name, question, length, bit, number) in handed_by_hand::REFUSED {
        let question = worked::bytes(question);
        let mut rows = vec![0; *length];
        if let Some(bit) = bit {
            rows[bit / 8] = 1 << (bit % 8);
        }
        let due = judged(&question, &rows);
        judger.report.same_apart(name, packed(due), *number);
        judger.gives(&question, &rows, *number);
    }
}

const SMALL: Size = Size {
    free: 3,
    own: 2,
    constants: 2,
    height: 1,
    positive: 2,
    disequations: 2,
    policies: true,
};

/// Every assignment of trees no taller than 1.
fn low_rows(report: &mut Report) {
    let mut judger = Judger::new(report);
    let low: Vec<Vec<u8>> = all_trees(1).iter().map(row_of_tree).collect();
    for _ in 0..judger.report.rounds(1_500) {
        let question = random_question(&mut judger.random, &SMALL);
        for number in 0..low.len().pow(question.free as u32) {
            let row = |place| &low[number / low.len().pow(place) % low.len()][..];
            let mut rows = (0..question.free as u32)
                .map(row)
                .collect::<Vec<_>>()
                .concat();
            rows.resize(ANSWER_BYTES, 0);
            judger.question(&question, &rows);
        }
    }
    judger.seen_all(200);
    judger.seen_ways(200);
    judger.seen_by_trees(500);
}

/// Rows no taller than 2 that meet the positive clauses, or any, of questions for which own trees of height 3 must be tried; every fourth time own shares that are
/// crowded beside a row. Where whole trees say that rows extend, own trees must often be taller than all else, and often by two.
fn taller_own_trees(report: &mut Report) {
    let size = Size {
        height: 2,
        positive: 3,
        disequations: 3,
        ..SMALL
    };
    let mut judger = Judger::new(report);
    let mut needed = [0; 2];
    for round in 0..judger.report.rounds(16_000) {
        let random = &mut judger.random;
        let (question, rows) = match round % 4 {
            0 => own_parts(random),
            _ => {
                let question = random_question(random, &size);
                let height = random.between(question.height() as usize, 2) as u32;
                let rows = mixture(random, &question, height);
                let rows = rows.unwrap_or_else(|| any(random, &question, height));
                (question, rows)
            }
        };
        let extended = judger.given.by_trees[2];
        judger.question(&question, &rows);
        if judger.given.by_trees[2] > extended {
            for (more, count) in needed.iter_mut().enumerate() {
                *count += usize::from(needs_taller(&question, &rows, more as u32));
            }
        }
    }
    judger.seen_all(200);
    judger.seen_by_trees(500);
    enough(judger.report, "taller own trees", &needed, 100);
}

/// Rows near to a solution, and each with a change; now and then they are refused.
fn changed_rows(report: &mut Report) {
    let mut judger = Judger::new(report);
    for round in 0..judger.report.rounds(16_000) {
        let question = some_question(&mut judger.random);
        let rows = some(&mut judger.random, &question);
        let bytes = judger.mixed(&question);
        judger.bytes(&bytes, &rows);
        for _ in 0..3 {
            let changed = changed(&mut judger.random, &question, &rows);
            judger.bytes(&bytes, &changed);
        }
        if round % 8 == 0 {
            let changed = changed(&mut judger.random, &question, &rows);
            judger.question(&question, &changed);
            let faulty = faulty(&mut judger.random, &question, &rows);
            judger.bytes(&bytes, &faulty);
        }
    }
    judger.seen_all(300);
    judger.seen_ways(300);
    judger.seen_by_trees(10);
    judger.seen_refusals(&[18, 19], 50);
}

/// Entailments that hold but for one change, with rows of every height that meet the first system's positive clauses.
fn mixtures(report: &mut Report) {
    let mut judger = Judger::new(report);
    for round in 0..judger.report.rounds(20_000) {
        let random = &mut judger.random;
        let variables = (random.between(1, 5), random.below(4));
        let constants = (random.between(1, 5), random.below(6) as u32);
        let mut counts = || Counts {
            positive: random.below(6),
            disequations: random.below(8),
            policies: round / 4 % 2 == 0,
        };
        let clauses = (counts(), counts());
        let change = CHANGES[round % CHANGES.len()];
        let question = entailment(random, variables, constants, clauses, change);
        let height = random.between(question.height() as usize, ROW_HEIGHT as usize);
        let Some(rows) = mixture(random, &question, height as u32) else {
            continue;
        };
        let bytes = judger.mixed(&question);
        judger.bytes(&bytes, &rows);
    }
    judger.seen_of_kind_1(200);
}

/// Every split of 12 variables into free and own ones.
fn rows_of_twelve(report: &mut Report) {
    let mut judger = Judger::new(report);
    for round in 0..judger.report.rounds(100) {
        for own in 0..=MOST_VARIABLES {
            let random = &mut judger.random;
            let free = MOST_VARIABLES - own;
            let constants = (random.between(1, 4), random.below(2) as u32);
            let mut counts = || Counts {
                positive: random.below(6),
                disequations: random.below(5),
                policies: true,
            };
            let clauses = (counts(), counts());
            let change = CHANGES[round % CHANGES.len()];
            let question = entailment(random, (free, own), constants, clauses, change);
            rows_of_split(&mut judger, &question);
        }
    }
    judger.seen_of_kind_1(100);
}

/// Rows that meet the positive clauses, at a low height and at the tallest; one with a leaf turned; and any rows where the first system says
/// nothing.
fn rows_of_split(judger: &mut Judger, question: &Question) {
    let bytes = judger.mixed(question);
    for height in [question.height() + 1, ROW_HEIGHT] {
        if let Some(mut rows) = mixture(&mut judger.random, question, height) {
            judger.bytes(&bytes, &rows);
            if question.free > 0 {
                let at = judger.random.below(question.free * ROW_BYTES);
                rows[at] ^= 1 << judger.random.below(8);
                judger.bytes(&bytes, &rows);
            }
        }
    }
    let without = Question {
        first: Vec::new(),
        ..question.clone()
    };
    let height = judger.random.below(4) as u32;
    let rows = any(&mut judger.random, &without, height);
    judger.question(&without, &rows);
}
