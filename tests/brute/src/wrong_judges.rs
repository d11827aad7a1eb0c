//! Wrong judges of handed rows: one word of what judging is to give is misread at a time. That each gives another number than is due on many questions and rows, for which
//! the library is compared with what is due, is counted.

use crate::handed::Judgement::{self, Accepted, Broken, Extends};
use crate::handed::{
    extends, judged, leaves, leaves_by, Asked, Leaf, Words, AS_WRITTEN, FOREIGN_BIT, WRONG_LENGTH,
};
use crate::handed_rows::some_case;
use crate::judge::{trees_of_rows, ANSWER_BYTES, ROW_BYTES};
use crate::judger::Judger;
use crate::question::{
    operand_count, read, split, Clause, Question, Refusal, Relation, Split, SORTS,
};
use crate::report::{Family, Report};
use crate::single::{beside, choices, holds_at_leaf};
use crate::slips::enough;
use crate::tree::{Tree, ROW_HEIGHT};
use std::collections::{HashMap, HashSet};
use std::ops::Range;

pub const FAMILIES: &[Family] = &[("slips in judging", slips_noticed)];

const LEAVES: usize = 1 << ROW_HEIGHT;

const SLIPS: [(&str, Words); 38] = [
    (
        "accepts everything",
        Words {
            holds: |_, _| true,
            said: |_, _| Accepted,
            ..AS_WRITTEN
        },
    ),
    (
        "rejects everything: clause 0",
        Words {
            holds: |_, _| false,
            said: |_, _| Broken(0, None),
            ..AS_WRITTEN
        },
    ),
    (
        "rejects everything: the rows extend",
        Words {
            holds: |_, _| true,
            said: |_, _| Extends,
            ..AS_WRITTEN
        },
    ),
    ("turns every question away", by_question(|_, _| refused(1))),
    ("the first system alone", by_extends(|_, _, _| false)),
    (
        "rows that extend are accepted, others not",
        by_said(|entailment, extends| match entailment == extends {
            true => Accepted,
            false => Extends,
        }),
    ),
    (
        "kind 0 is extended too",
        by_said(|entailment, extends| match entailment && !extends {
            true => Accepted,
            false => Extends,
        }),
    ),
    // What is refused.
    (
        "rows of no free variable are not looked at",
        by_question(|bytes, rows| match rows.len() {
            ANSWER_BYTES => read(bytes),
            _ => as_written(bytes, rows),
        }),
    ),
    (
        "own rows are not looked at",
        by_question(|bytes, rows| foreign(bytes, rows, |q| q.variables()..12)),
    ),
    (
        "absent rows are not looked at",
        by_question(|bytes, rows| foreign(bytes, rows, |q| q.free..q.variables())),
    ),
    (
        "row 11 is not looked at",
        by_question(|bytes, rows| foreign(bytes, rows, |q| q.free..11.max(q.free))),
    ),
    (
        "19 before 18",
        by_question(|bytes, rows| {
            let question = read(bytes)?;
            let start = rows.len().min(question.free * ROW_BYTES);
            match rows[start..].iter().any(|byte| *byte != 0) {
                true => refused(FOREIGN_BIT),
                false => as_written(bytes, rows),
            }
        }),
    ),
    (
        "longer rows are taken",
        by_question(|bytes, rows| as_written(bytes, &rows[..rows.len().min(ANSWER_BYTES)])),
    ),
    (
        "shorter rows are filled up",
        Words {
            question: |bytes, rows| as_written(bytes, &filled_up(rows)),
            leaves: |question, rows| leaves(question, &filled_up(rows), 0..LEAVES),
            ..AS_WRITTEN
        },
    ),
    (
        "18 before the faults of the question",
        by_question(|bytes, rows| match rows.len() {
            ANSWER_BYTES => as_written(bytes, rows),
            _ => refused(WRONG_LENGTH),
        }),
    ),
    (
        "faults of the question without their place",
        by_question(|bytes, rows| {
            as_written(bytes, rows).or_else(|refusal| refused(refusal.number))
        }),
    ),
    // Which clause is named.
    (
        "the highest broken clause",
        by_named(|_, broken| broken[broken.len() - 1]),
    ),
    (
        "clauses counted from 1",
        by_named(|_, broken| broken[0] + 1),
    ),
    (
        "positive clauses first",
        by_named(|asked, broken| by_section(&asked.question, broken, false)),
    ),
    (
        "disequations first",
        by_named(|asked, broken| by_section(&asked.question, broken, true)),
    ),
    (
        "clauses counted within their section",
        by_named(|asked, broken| {
            let first = &asked.question.first;
            let alike = |clause: &&Clause| clause.negated == first[broken[0]].negated;
            first[..broken[0]].iter().filter(alike).count()
        }),
    ),
    (
        "clauses of the second counted too",
        by_named(|asked, broken| number_among_all(asked.bytes, broken[0])),
    ),
    // When a clause holds.
    (
        "a disequation is asked at every leaf",
        by_holds(|clause, leaves| {
            leaves
                .iter()
                .all(|leaf| holds_at_leaf(clause, &leaf.choice, &leaf.constants))
        }),
    ),
    (
        "a positive clause is asked at one leaf",
        by_holds(|clause, leaves| {
            leaves
                .iter()
                .any(|leaf| holds_at_leaf(clause, &leaf.choice, &leaf.constants))
        }),
    ),
    (
        "a negated join must be defined",
        by_holds(|clause, leaves| {
            (AS_WRITTEN.holds)(clause, leaves) && !(clause.negated && is_undefined(clause, leaves))
        }),
    ),
    // What is looked at.
    (
        "the first word of each row alone",
        by_leaves(|question, rows| leaves(question, rows, 0..64)),
    ),
    (
        "the left half of each row alone",
        by_leaves(|question, rows| leaves(question, rows, 0..LEAVES / 2)),
    ),
    (
        "the last leaf is not looked at",
        by_leaves(|question, rows| leaves(question, rows, 0..LEAVES - 1)),
    ),
    (
        "one row leaf below each of the constants",
        by_leaves(|question, rows| leaves(question, rows, (0..LEAVES).step_by(32))),
    ),
    (
        "leaf i of a constant beside leaves i, i + 32 and so on",
        by_leaves(|question, rows| leaves_by(question, rows, 0..LEAVES, |leaf| leaf % 32)),
    ),
    (
        "constants from the right",
        by_leaves(|question, rows| leaves_by(question, rows, 0..LEAVES, |leaf| 31 - leaf / 32)),
    ),
    // When rows extend.
    (
        "own trees no taller than the rows",
        by_extends(|question, leaves, rows| {
            extends(question, leaves) && extends_within(question, rows, tallest(question, rows), 0)
        }),
    ),
    (
        "own trees one taller than the rows",
        by_extends(|question, leaves, rows| {
            extends(question, leaves) && extends_within(question, rows, tallest(question, rows), 1)
        }),
    ),
    (
        "own trees no taller than 10",
        by_extends(|question, leaves, rows| {
            extends(question, leaves) && extends_within(question, rows, ROW_HEIGHT, 0)
        }),
    ),
    (
        "own trees no taller than 11",
        by_extends(|question, leaves, rows| {
            extends(question, leaves) && extends_within(question, rows, ROW_HEIGHT, 1)
        }),
    ),
    (
        "disequations of the second are not asked",
        by_extends(|question, leaves, _| {
            let second = split(&question.second).positive;
            extends(
                &Question {
                    second,
                    ..question.clone()
                },
                leaves,
            )
        }),
    ),
    (
        "a disequation of the second at every leaf",
        by_extends(|question, leaves, _| at_every_leaf(question, leaves)),
    ),
    (
        "one disequation of the second is enough",
        by_extends(|question, leaves, _| {
            let Split {
                positive,
                disequations,
            } = split(&question.second);
            let with = |one: &Clause| Question {
                second: [&positive[..], &[*one]].concat(),
                ..question.clone()
            };
            match disequations.is_empty() {
                true => extends(question, leaves),
                false => disequations.iter().any(|one| extends(&with(one), leaves)),
            }
        }),
    ),
];

const fn by_question(question: fn(&[u8], &[u8]) -> Result<Question, Refusal>) -> Words {
    Words {
        question,
        ..AS_WRITTEN
    }
}

const fn by_leaves(leaves: fn(&Question, &[u8]) -> Vec<Leaf>) -> Words {
    Words {
        leaves,
        ..AS_WRITTEN
    }
}

const fn by_holds(holds: fn(&Clause, &[Leaf]) -> bool) -> Words {
    Words {
        holds,
        ..AS_WRITTEN
    }
}

const fn by_named(named: fn(&Asked, &[usize]) -> usize) -> Words {
    Words {
        named,
        ..AS_WRITTEN
    }
}

const fn by_extends(extends: fn(&Question, &[Leaf], &[u8]) -> bool) -> Words {
    Words {
        extends,
        ..AS_WRITTEN
    }
}

const fn by_said(said: fn(bool, bool) -> Judgement) -> Words {
    Words { said, ..AS_WRITTEN }
}

fn as_written(bytes: &[u8], rows: &[u8]) -> Result<Question, Refusal> {
    (AS_WRITTEN.question)(bytes, rows)
}

fn refused(number: u8) -> Result<Question, Refusal> {
    Err(Refusal { number, place: 0 })
}

/// The question, with only these rows looked at for a bit that is set.
fn foreign(
    bytes: &[u8],
    rows: &[u8],
    looked_at: fn(&Question) -> Range<usize>,
) -> Result<Question, Refusal> {
    let question = read(bytes)?;
    if rows.len() != ANSWER_BYTES {
        return refused(WRONG_LENGTH);
    }
    let Range { start, end } = looked_at(&question);
    match rows[start * ROW_BYTES..end * ROW_BYTES]
        .iter()
        .any(|b| *b != 0)
    {
        true => refused(FOREIGN_BIT),
        false => Ok(question),
    }
}

fn filled_up(rows: &[u8]) -> Vec<u8> {
    let mut longer = rows.to_vec();
    longer.resize(rows.len().max(ANSWER_BYTES), 0);
    longer
}

/// The number of the lowest broken clause if one sort of clause comes before the other.
fn by_section(question: &Question, broken: &[usize], disequations_first: bool) -> usize {
    let mut order: Vec<usize> = (0..question.first.len()).collect();
    order.sort_by_key(|number| question.first[*number].negated != disequations_first);
    let lowest = order.iter().position(|number| broken.contains(number));
    lowest.expect("one is broken")
}

/// The number that this clause of the first system has among those of both.
fn number_among_all(bytes: &[u8], mut number: usize) -> usize {
    let mut all = 0;
    let mut at = 4;
    loop {
        let command = bytes[at];
        let sort = SORTS.iter().find(|sort| sort.commands.contains(&command));
        match sort.map(|sort| sort.commands[0] == command) {
            Some(true) if number == 0 => return all,
            Some(true) => (number, all) = (number - 1, all + 1),
            Some(false) => all += 1,
            None => {}
        }
        at += 1 + operand_count(command).expect("a known command");
    }
}

/// Whether a clause is of a join that is undefined.
fn is_undefined(clause: &Clause, leaves: &[Leaf]) -> bool {
    let Relation::Join(a, b, _) = clause.relation else {
        return false;
    };
    let relation = Relation::Together(a, b);
    let negated = false;
    !(AS_WRITTEN.holds)(&Clause { relation, negated }, leaves)
}

/// The height of the rows, or of the constants that clauses name if they are taller.
fn tallest(question: &Question, rows: &[u8]) -> u32 {
    let heights = trees_of_rows(question, rows).iter().map(Tree::height).max();
    heights.unwrap_or(0).max(question.height())
}

/// Whether rows that can be extended need own trees that are taller than the rows and the constants by more than this.
pub fn needs_taller(question: &Question, rows: &[u8], more: u32) -> bool {
    !extends_within(question, rows, tallest(question, rows), more)
}

/// Whether own trees no taller than `height` and so many more extend rows that can be extended. The rows and the constants are no taller than `height`, so each leaf
/// of it has 2^`more` own choices. What is kept is which disequations are had together so far.
fn extends_within(question: &Question, rows: &[u8], height: u32, more: u32) -> bool {
    let second = split(&question.second);
    let all = (1_u64 << second.disequations.len()) - 1;
    let mut together = HashSet::from([0]);
    let mut seen = HashMap::new();
    for number in (0..LEAVES).step_by(LEAVES >> height) {
        let leaf = leaves(question, rows, [number]).remove(0);
        let here: &HashSet<u64> = seen
            .entry(leaf)
            .or_insert_with_key(|leaf| had_together(&second, question.own, leaf));
        for _ in 0..1 << more {
            if together.contains(&all) {
                return true;
            }
            let with = |one: &u64| here.iter().map(|other| one | other).collect::<Vec<u64>>();
            together = together.iter().flat_map(with).collect();
        }
    }
    together.contains(&all)
}

/// Which disequations each own choice has that meets the positive clauses at a leaf.
fn had_together(second: &Split, own: usize, leaf: &Leaf) -> HashSet<u64> {
    let mut found = HashSet::new();
    for values in choices(own) {
        let whole = [&leaf.choice[..], &values].concat();
        let holds = |clause: &Clause| holds_at_leaf(clause, &whole, &leaf.constants);
        if second.positive.iter().all(holds) {
            let bits = second.disequations.iter().enumerate();
            found.insert(bits.map(|(j, clause)| u64::from(holds(clause)) << j).sum());
        }
    }
    found
}

/// Whether own choices meet the positive clauses at every leaf and have each disequation at every leaf.
fn at_every_leaf(question: &Question, leaves: &[Leaf]) -> bool {
    let second = split(&question.second);
    leaves.iter().all(|leaf| {
        let here = beside(&second, question.own, &leaf.choice, &leaf.constants);
        here.met && here.had.into_iter().all(|had| had)
    })
}

/// The library judges each once. A slip that gives another number for some of them would be noticed in its place.
fn slips_noticed(report: &mut Report) {
    let mut judger = Judger::new(report);
    let mut changed = [0; SLIPS.len()];
    for _ in 0..judger.report.rounds(5_000) {
        let (bytes, rows) = some_case(&mut judger.random);
        judger.bytes(&bytes, &rows);
        let right = judged(&bytes, &rows);
        for (count, (_, slip)) in changed.iter_mut().zip(&SLIPS) {
            *count += usize::from(slip.judge(&bytes, &rows) != right);
        }
    }
    let names = SLIPS.map(|(name, _)| name);
    enough(judger.report, "judgements", names, changed, 10);
    judger.seen_all(50);
}
