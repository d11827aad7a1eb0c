//! Rows that are handed over to be judged: null pointers, every length, every alignment, memory that ends at a page and may only be read, memory that
//! was used before, many threads, and questions and rows that grew by mutation.

use crate::handed::judge;
use crate::memory::{Heap, Null, ALIGNMENTS};
use crate::mutation::{mutated, MOST_MUTATIONS};
use crate::pages::{large, Pages, LONGEST_QUESTION, SIDES};
use crate::samples::{few_handed, handed, Handed};
use crate::threads::at_once;
use brute::handed::{judged, packed};
use brute::handed_rows::{any, some_case};
use brute::judge::{ANSWER_BYTES, ROW_BYTES};
use brute::lent::Lent;
use brute::library;
use brute::question::{hex, read};
use brute::random::Random;
use brute::report::{Family, Report};
use brute::seen::enough;
use std::collections::HashMap;

pub const FAMILIES: &[Family] = &[
    ("judging with null pointers", nulls),
    ("judging with rows of every length", lengths),
    ("judging at every alignment", every_alignment),
    ("judging at the edge of a page", at_the_edge),
    ("judging cut questions at the edge of a page", cut_questions),
    ("judging again and again", again_and_again),
    ("judging in eight threads at once", eight_threads),
    ("judging mutated questions and rows", mutation),
];

/// What judging says, the refusal number, the clause number and the way.
type Sort = (u8, u8, u8, u8);

/// How far past 1,536 the lengths go.
const PAST: usize = 70;

/// Each buffer null or not.
fn nulls(report: &mut Report) {
    let random = &mut report.random();
    report.case(judge(&mut Null, &mut Null));
    for (bytes, rows) in few_handed() {
        report.case(judge(&mut Null, &mut Heap::holding(random, 0, &rows)));
        report.case(judge(&mut Heap::holding(random, 0, &bytes), &mut Null));
    }
}

/// Rows of every length: the first bytes of those at hand, with zeros put behind them, and of full ones. What is cut off stands behind the lent bytes.
fn lengths(report: &mut Report) {
    let random = &mut report.random();
    for (bytes, mut rows) in few_handed() {
        rows.resize(ANSWER_BYTES + PAST, 0);
        let full = vec![0xFF; rows.len()];
        for length in 0..=rows.len() {
            for content in [&rows, &full] {
                let mut question = Heap::holding(random, 0, &bytes);
                let mut cut = Heap::holding(random, 0, content);
                cut.shorten(length);
                report.case(judge(&mut question, &mut cut));
            }
        }
    }
}

fn every_alignment(report: &mut Report) {
    let random = &mut report.random();
    let mut handed = few_handed();
    handed.extend((0..report.rounds(20)).map(|_| some_case(random)));
    for (bytes, rows) in handed {
        for number in 0..ALIGNMENTS.pow(2) {
            let (a, b) = (number % ALIGNMENTS, number / ALIGNMENTS);
            let mut question = Heap::holding(random, a, &bytes);
            report.case(judge(&mut question, &mut Heap::holding(random, b, &rows)));
        }
    }
}

/// Both may only be read, and a page that is not accessible stands right before or right behind each.
fn at_the_edge(report: &mut Report) {
    let random = &mut report.random();
    let mut question_pages = Pages::new(LONGEST_QUESTION);
    let mut rows_pages = Pages::new(2 * ANSWER_BYTES);
    let mut cases = handed(random, report.rounds(1_500));
    for bytes in large(random, 8) {
        let question = read(&bytes).expect("an accepted question");
        cases.push((bytes, any(random, &question, 10)));
    }
    for (bytes, rows) in cases {
        if bytes.len() > LONGEST_QUESTION {
            continue;
        }
        for length in [rows.len(), 0, ROW_BYTES, ANSWER_BYTES - 1, ANSWER_BYTES + 1] {
            let mut rows = rows.clone();
            rows.resize(length, 0);
            for (one, other) in SIDES
                .into_iter()
                .flat_map(|one| SIDES.map(|other| (one, other)))
            {
                let question = question_pages.lend_to_read(random, one, &bytes);
                report.case(judge(
                    question,
                    rows_pages.lend_to_read(random, other, &rows),
                ));
            }
        }
    }
}

fn cut_questions(report: &mut Report) {
    let random = &mut report.random();
    let mut question_pages = Pages::new(LONGEST_QUESTION);
    let mut rows_pages = Pages::new(ANSWER_BYTES);
    let mut questions = large(random, 4);
    questions.extend((0..report.rounds(60)).map(|_| some_case(random).0));
    questions.retain(|bytes| bytes.len() <= LONGEST_QUESTION);
    for bytes in questions {
        for length in 0..bytes.len() {
            for side in SIDES {
                let question = question_pages.lend_to_read(random, side, &bytes[..length]);
                let rows = rows_pages.lend_to_read(random, side, &[0; ANSWER_BYTES]);
                report.case(judge(question, rows));
            }
        }
    }
}

/// In the same memory: each twice, then with one byte changed, of the question or of the rows, then as it was.
fn again_and_again(report: &mut Report) {
    let random = &mut report.random();
    let mut question = Lent::new(random, LONGEST_QUESTION);
    let mut lent_rows = Lent::new(random, ANSWER_BYTES);
    for (bytes, rows) in handed(random, report.rounds(4_000)) {
        let (mut other_bytes, mut other_rows) = (bytes.clone(), rows.clone());
        let changed = match random.once_in(2) {
            true => &mut other_bytes,
            false => &mut other_rows,
        };
        if let Some(last) = changed.len().checked_sub(1) {
            changed[random.between(0, last)] ^= 1 << random.below(8);
        }
        let as_it_was = (&bytes, &rows);
        for (bytes, rows) in [as_it_was, as_it_was, (&other_bytes, &other_rows), as_it_was] {
            question.lend_holding(random, bytes);
            lent_rows.lend_holding(random, rows);
            report.case(judge(&mut question, &mut lent_rows));
        }
    }
}

/// The number is what is due, and the question and the rows are afterwards what they were.
fn eight_threads(report: &mut Report) {
    let mut random = report.random();
    let cases = handed(&mut random, 3_000);
    let due = |(bytes, rows): &Handed| packed(judged(bytes, rows));
    let all_due: Vec<(u64, Handed)> = cases.iter().map(|c| (due(c), c.clone())).collect();
    let judge = |(bytes, rows): &Handed| {
        let number = library::judge(bytes, rows);
        (number, (bytes.clone(), rows.clone()))
    };
    for fault in at_once(&cases, &all_due, judge) {
        report.case(match fault {
            None => Ok(()),
            Some(number) => {
                let bytes = hex(&cases[number].0);
                Err(format!("not what is due; question {bytes}"))
            }
        });
    }
}

/// Questions that grow by mutation, by one in half of the rounds and by up to four in the others, with rows that someone made for another. What gives another sort of
/// number is kept and mutated further. Of what is refused at the start one in four is kept.
fn mutation(report: &mut Report) {
    let random = &mut report.random();
    let mut corpus: Vec<Vec<u8>> = Vec::new();
    let mut rows: Vec<Vec<u8>> = Vec::new();
    for (bytes, handed) in handed(random, 600) {
        let kept = judged(&bytes, &handed).is_ok() || random.once_in(4);
        if kept && bytes.len() <= LONGEST_QUESTION {
            corpus.push(bytes);
            rows.push(handed);
        }
    }
    let mut seen: HashMap<Sort, usize> = HashMap::new();
    for round in 0..report.rounds(100_000) {
        let most = if round % 2 == 0 { 1 } else { MOST_MUTATIONS };
        let bytes = mutated(random, &corpus, most);
        let mut handed = rows[random.below(rows.len())].clone();
        mutate_rows(random, &bytes, &mut handed);
        let given = judge(
            &mut Heap::holding(random, 0, &bytes),
            &mut Heap::holding(random, 0, &handed),
        );
        report.case(given);
        let [said, refusal, _, _, clause, way, ..] = packed(judged(&bytes, &handed)).to_le_bytes();
        let count = seen.entry((said, refusal, clause, way)).or_default();
        *count += 1;
        if *count == 1 {
            corpus.push(bytes);
            rows.push(handed);
        }
    }
    sorts_seen(report, &seen);
}

/// Each refusal was there, and each judgement and each way often.
fn sorts_seen(report: &mut Report, seen: &HashMap<Sort, usize>) {
    let count = |said: u8, number: u8| -> usize {
        let sorts = seen.iter().filter(|(s, _)| (s.0, s.1) == (said, number));
        sorts.map(|(_, count)| count).sum()
    };
    let refusals = (1..=10).chain([18, 19]).map(|number| count(0, number));
    enough(report, "refusals", &refusals.collect::<Vec<usize>>(), 1);
    let judgements = [1, 2, 3].map(|said| count(said, 0));
    println!("accepted, broken and extending: {judgements:?}");
    enough(report, "judgements", &judgements, 1_000);
    let ways = [0, 1, 2, 3].map(|way| -> usize {
        let sorts = seen.iter().filter(|(s, _)| (s.0, s.3) == (2, way));
        sorts.map(|(_, count)| count).sum()
    });
    println!("broken disequations, overlaps, surpluses and shortfalls: {ways:?}");
    enough(report, "ways", &ways, 1_000);
}

/// Some bits are turned; mostly the rows become 1,536 bytes, and those of no free variable zero.
fn mutate_rows(random: &mut Random, bytes: &[u8], rows: &mut Vec<u8>) {
    if !random.once_in(8) {
        rows.resize(ANSWER_BYTES, 0);
    }
    for _ in 0..random.below(4) {
        if !rows.is_empty() {
            let at = random.below(rows.len());
            rows[at] ^= 1 << random.below(8);
        }
    }
    let free = bytes
        .get(2)
        .map_or(0, |free| usize::from(*free) * ROW_BYTES);
    if !random.once_in(8) && free < rows.len() {
        rows[free..].fill(0);
    }
}
