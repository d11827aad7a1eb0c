//! Families of the solver's parts: plain trees, the reader, route B and route A on what was worked by hand.

use crate::fixed;
use crate::judge::{trees_of_rows, ROW_BYTES};
use crate::make::{random_question, random_tree, Size};
use crate::named::height_by_bytes;
use crate::question::{read, write, Question};
use crate::refusals;
use crate::report::{Family, Report};
use crate::single::decide;
use crate::slips::Changed;
use crate::tree::{
    bytes_of_leaves, leaves_of_bytes, number_of_tree, row_of_tree, splits, tree_of_number,
    tree_of_row, Tree,
};
use crate::tree_text::{constant_of_text, tree_of_text};
use crate::typed::BY_HAND;
use crate::whole::{all_trees, satisfiable, tree_count, Trees, TALLEST};
use crate::worked;
use crate::wrong_heights::each_matters;

pub const FAMILIES: &[Family] = &[
    ("plain trees", plain_trees),
    ("the reader: refusals worked by hand", refusals_by_hand),
    (
        "the reader: questions written and read again",
        written_and_read,
    ),
    ("the reader: tree texts", tree_texts),
    ("route B: worked questions", worked_by_hand),
    (
        "route A: heights without a solution",
        heights_without_a_solution,
    ),
];

fn plain_trees(report: &mut Report) {
    for (n, k) in [
        (0, 0),
        (1, 0),
        (2, 1),
        (3, 2),
        (4, 2),
        (5, 3),
        (31, 5),
        (32, 5),
    ] {
        report.same_apart("the least k with n at most 2^k", splits(n), k);
    }
    for height in 0..=TALLEST {
        let trees = all_trees(height);
        report.same_apart("trees", trees.len(), tree_count(height));
        let distinct: std::collections::HashSet<_> = trees.iter().collect();
        report.same_apart("distinct trees", distinct.len(), tree_count(height));
    }
    texts_and_numbers(report);
}

fn texts_and_numbers(report: &mut Report) {
    let texts = [
        (0x0000_0000, "o"),
        (0xFFFF_FFFF, "*"),
        (0x0000_FFFF, "(*o)"),
        (0xFFFF_0000, "(o*)"),
        (0x0000_00FF, "((*o)o)"),
        (0x0000_0001, "(((((*o)o)o)o)o)"),
    ];
    for (number, text) in texts {
        let tree = tree_of_number(number);
        report.same_apart("text", tree.text(), text.to_string());
        report.same_apart("height", tree.height(), text.matches("(").count() as u32);
        report.same_apart("number", number_of_tree(&tree), number);
    }
    let quarters = [0x0000_00FF, 0x0000_FF00].map(tree_of_number);
    let joined = quarters[0].join(&quarters[1]).map(|t| t.text());
    report.same_apart("the join of two quarters", joined, Some("(*o)".to_string()));
    report.same_apart("full join full", Tree::Full.join(&Tree::Full), None);
    let mut random = report.random();
    for _ in 0..200 {
        let tree = random_tree(&mut random, 5);
        report.same_apart("row", tree_of_row(&row_of_tree(&tree)), tree);
        let bytes = random.bytes(ROW_BYTES);
        report.same_apart("bits", bytes_of_leaves(&leaves_of_bytes(&bytes)), bytes);
    }
}

fn refusals_by_hand(report: &mut Report) {
    for fault in refusals::by_hand() {
        let given = read(&fault.bytes).map(|_| ());
        report.same_apart(fault.name, given, fault.refusal.map_or(Ok(()), Err));
    }
}

fn worked_by_hand(report: &mut Report) {
    for worked in worked::all() {
        let bytes = worked::bytes(worked.bytes);
        let Ok(question) = read(&bytes) else {
            report.apart(Err(format!("{}: refused", worked.name)));
            continue;
        };
        let outcome = decide(&question);
        let given = (
            outcome.yes,
            outcome.height,
            outcome.reason,
            outcome.disequation,
        );
        let expected = (worked.yes, worked.height, worked.reason, worked.disequation);
        report.same_apart(worked.name, given, expected);
        report.same_apart(worked.name, height_by_bytes(&bytes), question.height());
        let rows = fixed::rows(&question, &outcome);
        let texts = rows.map(|rows| texts_of_rows(&question, &rows));
        let expected = worked
            .shown
            .map(|texts| texts.iter().map(|text| text.to_string()).collect());
        report.same_apart(worked.name, texts, expected);
    }
    each_word_matters(report);
    each_matters(report);
}

/// Each slip shows other rows for one of the questions that were worked for it.
fn each_word_matters(report: &mut Report) {
    let mut changed = Changed::default();
    for worked in worked::FIXED.iter().chain(worked::LEFTMOST) {
        let question = read(&worked::bytes(worked.bytes)).expect("a worked question");
        let outcome = decide(&question);
        let rows = fixed::rows(&question, &outcome).expect("a solution is shown");
        changed.note(&question, &outcome, &rows);
    }
    changed.enough(report, 1);
}

fn heights_without_a_solution(report: &mut Report) {
    let trees = &Trees::new();
    for (text, heights) in [
        (worked::THREE_NOT_EMPTY, &[false, true, true][..]),
        (worked::FIVE_NOT_EMPTY, &[false, false, true][..]),
        (worked::TWO_READERS, &[false, true, true][..]),
    ] {
        let question = read(&worked::bytes(text)).expect("a worked question");
        for (height, expected) in heights.iter().enumerate() {
            let given = satisfiable(trees, &question, height as u32);
            report.same_apart("has a solution of that height", given, *expected);
        }
    }
}

/// The trees, folded or not, with so many pairs.
fn trees_of_pairs(pairs: usize) -> Vec<Tree> {
    if pairs == 0 {
        return vec![Tree::Empty, Tree::Full];
    }
    let mut trees = Vec::new();
    for on_the_left in 0..pairs {
        let rights = trees_of_pairs(pairs - 1 - on_the_left);
        for left in trees_of_pairs(on_the_left) {
            let pair = |right: &Tree| Tree::Pair(Box::new(left.clone()), Box::new(right.clone()));
            trees.extend(rights.iter().map(pair));
        }
    }
    trees
}

/// What the reader gives of texts worked by hand, and of all trees with few pairs, written.
fn tree_texts(report: &mut Report) {
    for (text, due) in BY_HAND {
        report.same_apart(text, constant_of_text(text.as_bytes()), *due);
    }
    for pairs in 0..=5 {
        for tree in trees_of_pairs(pairs) {
            let read = tree_of_text(tree.text().as_bytes());
            report.same_apart("a tree, written", read, Some(tree));
        }
    }
}

pub fn texts_of_rows(question: &Question, rows: &[u8]) -> Vec<String> {
    let trees = trees_of_rows(question, rows);
    trees.iter().map(Tree::text).collect()
}

fn written_and_read(report: &mut Report) {
    let size = Size {
        free: 6,
        own: 6,
        constants: 32,
        height: 5,
        positive: 64,
        disequations: 31,
        policies: true,
    };
    let mut random = report.random();
    for _ in 0..300 {
        let question = random_question(&mut random, &size);
        let bytes = write(&question, || random.once_in(2));
        report.same_apart("question", read(&bytes).as_ref(), Ok(&question));
    }
}
