//! Wrong readers of tree text: one word of docs/SPEC.md, 6.5.1, 6.5.2, 7.1.16 to 7.1.18 and 7.3, is misread at a time. On many texts
//! each gives another result, and the comparison with the library notices.

use crate::reading::Reading;
use crate::report::{Family, Report};
use crate::slips::enough;
use crate::tree::{number_of_tree, Tree, CONSTANT_HEIGHT};
use crate::tree_text::{
    constant_of_text, could_be_folded, tree_of_text, Words, AS_WRITTEN, LONGEST_READ, NOT_FOLDED,
    NOT_TREE_TEXT, TOO_TALL,
};
use crate::typed::some_text;

pub const FAMILIES: &[Family] = &[("slips in reading tree text", slips_noticed)];

/// A longest text of 95 or 96 bytes has no slip of its own: no tree text has so many.
const SLIPS: [(&str, Words); 15] = [
    (
        "94 bytes are too many",
        Words {
            longest: LONGEST_READ - 1,
            ..AS_WRITTEN
        },
    ),
    (
        "no number of bytes is too many",
        Words {
            longest: usize::MAX,
            ..AS_WRITTEN
        },
    ),
    (
        "16 and 17 swapped",
        Words {
            numbers: [NOT_TREE_TEXT, TOO_TALL, NOT_FOLDED],
            ..AS_WRITTEN
        },
    ),
    ("16 before 15", by_tree(broken_off_at_a_pair)),
    ("17 before 15", by_tree(broken_off_at_six_open)),
    ("17 before 16", by_folding(folds_and_is_low)),
    ("more behind the tree is passed over", by_tree(first_tree)),
    ("a text cut short is closed", by_tree(closed)),
    ("any other sign is an empty leaf", by_tree(other_signs)),
    ("the right half first", by_tree(mirrored)),
    ("a pair that could be folded is folded", by_tree(folded)),
    ("two equal halves could be folded", by_folding(equal_halves)),
    (
        "height 5 is too tall",
        Words {
            is_taller: |tree| tree.height() >= CONSTANT_HEIGHT,
            ..AS_WRITTEN
        },
    ),
    (
        "the height along the left halves alone",
        Words {
            is_taller: |tree| left_height(tree) > CONSTANT_HEIGHT,
            constant: cut_constant,
            ..AS_WRITTEN
        },
    ),
    (
        "a tree that is too tall is cut",
        Words {
            is_taller: |_| false,
            constant: cut_constant,
            ..AS_WRITTEN
        },
    ),
];

const fn by_tree(tree: fn(&[u8]) -> Option<Tree>) -> Words {
    Words { tree, ..AS_WRITTEN }
}

const fn by_folding(could_be_folded: fn(&Tree) -> bool) -> Words {
    Words {
        could_be_folded,
        ..AS_WRITTEN
    }
}

/// Of a text that is none, a pair in it that could be folded.
fn broken_off_at_a_pair(text: &[u8]) -> Option<Tree> {
    let mut pairs = text.windows(4).filter_map(tree_of_text);
    tree_of_text(text).or_else(|| pairs.find(could_be_folded))
}

/// Of a text that is none and begins with six open pairs, a tree that is too tall.
fn broken_off_at_six_open(text: &[u8]) -> Option<Tree> {
    let six_open = text.starts_with(b"((((((");
    let too_tall = || tree_of_text(b"((((((o*)o)o)o)o)o)").filter(|_| six_open);
    tree_of_text(text).or_else(too_tall)
}

fn folds_and_is_low(tree: &Tree) -> bool {
    could_be_folded(tree) && tree.height() <= CONSTANT_HEIGHT
}

fn first_tree(text: &[u8]) -> Option<Tree> {
    (0..=text.len()).find_map(|length| tree_of_text(&text[..length]))
}

/// Up to four pairs are closed.
fn closed(text: &[u8]) -> Option<Tree> {
    let mut longer = (0..=4).map(|count| [text, &vec![b')'; count]].concat());
    longer.find_map(|text| tree_of_text(&text))
}

fn other_signs(text: &[u8]) -> Option<Tree> {
    let sign = |sign: &u8| match sign {
        b'*' | b'(' | b')' => *sign,
        _ => b'o',
    };
    tree_of_text(&text.iter().map(sign).collect::<Vec<u8>>())
}

/// From right to left.
fn mirrored(text: &[u8]) -> Option<Tree> {
    let sign = |sign: &u8| match sign {
        b'(' => b')',
        b')' => b'(',
        leaf => *leaf,
    };
    tree_of_text(&text.iter().rev().map(sign).collect::<Vec<u8>>())
}

fn folded(text: &[u8]) -> Option<Tree> {
    fn fold(tree: Tree) -> Tree {
        match tree {
            Tree::Pair(left, right) => Tree::pair(fold(*left), fold(*right)),
            leaf => leaf,
        }
    }
    tree_of_text(text).map(fold)
}

/// Whether some pair has two halves that are alike.
fn equal_halves(tree: &Tree) -> bool {
    match tree {
        Tree::Pair(left, right) => left == right || equal_halves(left) || equal_halves(right),
        _ => false,
    }
}

pub fn left_height(tree: &Tree) -> u32 {
    match tree {
        Tree::Pair(left, _) => 1 + left_height(left),
        _ => 0,
    }
}

/// The constant of a tree whose pairs below height 5 become empty.
fn cut_constant(tree: &Tree) -> u32 {
    fn cut(tree: &Tree, height: u32) -> Tree {
        match tree {
            Tree::Pair(..) if height == 0 => Tree::Empty,
            Tree::Pair(left, right) => Tree::pair(cut(left, height - 1), cut(right, height - 1)),
            leaf => leaf.clone(),
        }
    }
    number_of_tree(&cut(tree, CONSTANT_HEIGHT))
}

/// The library reads each text once for what is due, and once for each slip that gives another result, which must be found wrong.
fn slips_noticed(report: &mut Report) {
    let mut reading = Reading::new(report);
    let mut changed = [0; SLIPS.len()];
    for _ in 0..reading.report.rounds(10_000) {
        let text = some_text(&mut reading.random);
        reading.text(&text);
        let right = constant_of_text(&text);
        for (count, (_, slip)) in changed.iter_mut().zip(&SLIPS) {
            let wrong = slip.read(&text);
            if wrong != right {
                *count += 1;
                reading.notices(&text, wrong);
            }
        }
    }
    let names = SLIPS.map(|(name, _)| name);
    enough(reading.report, "constants", names, changed, 30);
}
