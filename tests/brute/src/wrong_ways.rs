//! Wrong judges once more: one word of how a clause fails is misread at a time, while the clause that is named is the right one. That each gives another number than is due on many
//! questions and rows, for which the library is compared with what is due, is counted.

use crate::failing::some_failing;
use crate::handed::Judgement::Broken;
use crate::handed::{broken, packed, parts, way, Asked, Failing, Way};
use crate::handed_rows::some_case;
use crate::judger::Judger;
use crate::question::{read, Clause, Relation};
use crate::report::{Family, Report};
use crate::slips::enough;

pub const FAMILIES: &[Family] = &[("slips in how a clause fails", slips_noticed)];

/// Where a clause of a question is said to fail; the broken ones are given, of which the lowest counts.
type Slip = fn(&Asked, &[u8], &[usize]) -> Option<Failing>;

const SLIPS: [(&str, Slip); 25] = [
    // Which way.
    ("no way at all", |_, _, _| None),
    ("surplus and shortfall swapped", |asked, rows, broken| {
        by_way(asked, rows, broken, |way| match way {
            Way::Overlap => Way::Overlap,
            Way::Surplus => Way::Shortfall,
            Way::Shortfall => Way::Surplus,
        })
    }),
    ("always an overlap", |asked, rows, broken| {
        by_way(asked, rows, broken, |_| Way::Overlap)
    }),
    (
        "an overlap is a surplus where the sum is empty",
        |asked, rows, broken| {
            by_parts(asked, rows, broken, |values| match values {
                [true, true, false] => Some(Way::Surplus),
                _ => way(values),
            })
        },
    ),
    (
        "an overlap holds where the sum is full",
        |asked, rows, broken| {
            by_parts(asked, rows, broken, |values| match values {
                [true, true, true] => None,
                _ => way(values),
            })
        },
    ),
    (
        "one part alone is an overlap where the sum is empty",
        |asked, rows, broken| {
            by_parts(asked, rows, broken, |values| match way(values) {
                Some(Way::Surplus) => Some(Way::Overlap),
                other => other,
            })
        },
    ),
    ("the second part is not looked at", |asked, rows, broken| {
        by_parts(asked, rows, broken, |[a, _, sum]| way([a, false, sum]))
    }),
    // How a clause reads as a join.
    ("of an equality b is the part", |asked, rows, broken| {
        by_relation(asked, rows, broken, |relation| match relation {
            Relation::Equal(a, b) => Relation::Equal(b, a),
            other => other,
        })
    }),
    (
        "what is held together gives the first part",
        |asked, rows, broken| {
            by_relation(asked, rows, broken, |relation| match relation {
                Relation::Together(a, b) => Relation::Join(a, b, a),
                other => other,
            })
        },
    ),
    ("what is full gives empty", |asked, rows, broken| {
        by_relation(asked, rows, broken, |relation| match relation {
            Relation::Full(a) => Relation::Empty(a),
            other => other,
        })
    }),
    ("a disequation has a way", |asked, rows, broken| {
        let right = asked.failing(rows, broken[0]);
        right.or(Some(Failing {
            way: Way::Overlap,
            leaf: 0,
        }))
    }),
    (
        "of a disequation the leaf where a later clause fails",
        |asked, rows, broken| {
            broken
                .iter()
                .find_map(|number| asked.failing(rows, *number))
        },
    ),
    // Which leaf.
    ("the rightmost leaf", |asked, rows, broken| {
        all(asked, rows, broken).last().copied()
    }),
    ("the second leaf that fails", |asked, rows, broken| {
        let all = all(asked, rows, broken);
        all.get(1).or(all.first()).copied()
    }),
    (
        "the leftmost overlap before other ways",
        |asked, rows, broken| {
            let all = all(asked, rows, broken);
            let overlap = all.iter().find(|at| at.way == Way::Overlap);
            overlap.or(all.first()).copied()
        },
    ),
    ("the way at the rightmost leaf", |asked, rows, broken| {
        let all = all(asked, rows, broken);
        let way = all.last()?.way;
        Some(Failing { way, ..all[0] })
    }),
    ("an overlap anywhere is the way", |asked, rows, broken| {
        let all = all(asked, rows, broken);
        let overlap = all.iter().find(|at| at.way == Way::Overlap);
        let way = overlap.or(all.first())?.way;
        Some(Failing { way, ..all[0] })
    }),
    (
        "the broken clause that fails furthest left",
        |asked, rows, broken| {
            asked.failing(rows, broken[0])?;
            let each = broken.iter().filter_map(|n| asked.failing(rows, *n));
            each.min_by_key(|at| at.leaf)
        },
    ),
    // How the leaf is counted.
    ("leaves counted from 1", |asked, rows, broken| {
        by_leaf(asked, rows, broken, |leaf| leaf + 1)
    }),
    ("leaves counted from the right", |asked, rows, broken| {
        by_leaf(asked, rows, broken, |leaf| 1023 - leaf)
    }),
    ("the leaf counted within its word", |asked, rows, broken| {
        by_leaf(asked, rows, broken, |leaf| leaf % 64)
    }),
    (
        "the leaf counted within half a word",
        |asked, rows, broken| by_leaf(asked, rows, broken, |leaf| leaf % 32),
    ),
    ("the leaf of the constants", |asked, rows, broken| {
        by_leaf(asked, rows, broken, |leaf| leaf / 32)
    }),
    ("the high byte of the leaf lost", |asked, rows, broken| {
        by_leaf(asked, rows, broken, |leaf| leaf % 256)
    }),
    ("the high byte of the leaf first", |asked, rows, broken| {
        by_leaf(asked, rows, broken, |leaf| {
            usize::from((leaf as u16).swap_bytes())
        })
    }),
];

fn by_way(asked: &Asked, rows: &[u8], broken: &[usize], read: fn(Way) -> Way) -> Option<Failing> {
    let at = asked.failing(rows, broken[0])?;
    let way = read(at.way);
    Some(Failing { way, ..at })
}

fn by_leaf(
    asked: &Asked,
    rows: &[u8],
    broken: &[usize],
    read: fn(usize) -> usize,
) -> Option<Failing> {
    let at = asked.failing(rows, broken[0])?;
    let leaf = read(at.leaf);
    Some(Failing { leaf, ..at })
}

/// All leaves at which the lowest broken clause fails, if it is positive, with both words given: how it reads as a join, and which way that fails with these parts and this sum.
fn all_by(
    asked: &Asked,
    rows: &[u8],
    broken: &[usize],
    read: impl Fn(Relation) -> Relation,
    way: impl Fn([bool; 3]) -> Option<Way>,
) -> Vec<Failing> {
    let Clause { relation, negated } = asked.question.first[broken[0]];
    let relation = read(relation);
    match negated {
        true => Vec::new(),
        false => asked
            .all_failing(rows, |full| way(parts(relation, full)))
            .collect(),
    }
}

fn all(asked: &Asked, rows: &[u8], broken: &[usize]) -> Vec<Failing> {
    all_by(asked, rows, broken, |relation| relation, way)
}

fn by_parts(
    asked: &Asked,
    rows: &[u8],
    broken: &[usize],
    way: fn([bool; 3]) -> Option<Way>,
) -> Option<Failing> {
    let all = all_by(asked, rows, broken, |relation| relation, way);
    all.first().copied()
}

fn by_relation(
    asked: &Asked,
    rows: &[u8],
    broken: &[usize],
    read: fn(Relation) -> Relation,
) -> Option<Failing> {
    all_by(asked, rows, broken, read, way).first().copied()
}

/// The library judges each once. A slip that gives another number for some of them would be noticed in its place.
fn slips_noticed(report: &mut Report) {
    let mut judger = Judger::new(report);
    let mut changed = [0; SLIPS.len()];
    for round in 0..judger.report.rounds(2_000) {
        let (bytes, rows) = match round % 4 {
            0 => some_case(&mut judger.random),
            _ => {
                let mut growing = some_failing(&mut judger.random);
                (growing.bytes(&mut judger.random), growing.rows)
            }
        };
        judger.bytes(&bytes, &rows);
        let broken = broken(&bytes, &rows);
        let (Ok(question), [lowest, ..]) = (read(&bytes), &broken[..]) else {
            continue;
        };
        let asked = Asked::new(&bytes, question);
        let right = packed(Ok(Broken(*lowest, asked.failing(&rows, *lowest))));
        for (count, (_, slip)) in changed.iter_mut().zip(&SLIPS) {
            let given = packed(Ok(Broken(*lowest, slip(&asked, &rows, &broken))));
            *count += usize::from(given != right);
        }
    }
    let names = SLIPS.map(|(name, _)| name);
    enough(judger.report, "judgements", names, changed, 10);
    judger.seen_ways(50);
}
