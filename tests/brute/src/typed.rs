//! Tree texts as testers type them: worked by hand, grown by making leaves pairs, and mistyped.

use crate::random::Random;
use crate::tree::CONSTANT_HEIGHT;
use crate::tree_text::{Read, MOST_PAIRS, NOT_FOLDED, NOT_TREE_TEXT, TOO_TALL};

/// The signs of tree text, and one that is none.
pub const SIGNS: [u8; 5] = *b"o*()x";
const LEAVES: [u8; 2] = *b"o*";
/// What a leaf becomes; neither could be folded.
const PAIRS: [[u8; 4]; 2] = [*b"(o*)", *b"(*o)"];

const NONE: Read = Err(NOT_TREE_TEXT);
const FOLDS: Read = Err(NOT_FOLDED);
const TALL: Read = Err(TOO_TALL);

/// Texts with what reading them gives.
pub const BY_HAND: &[(&str, Read)] = &[
    ("o", Ok(0x0000_0000)),
    ("*", Ok(0xFFFF_FFFF)),
    ("(*o)", Ok(0x0000_FFFF)),
    ("(o*)", Ok(0xFFFF_0000)),
    ("((*o)o)", Ok(0x0000_00FF)),
    ("(o(*o))", Ok(0x00FF_0000)),
    ("((o*)(o*))", Ok(0xFF00_FF00)),
    ("(((*o)(o*))((*o)(*o)))", Ok(0x0F0F_F00F)),
    ("(((((*o)o)o)o)o)", Ok(0x0000_0001)),
    ("(o(o(o(o(o*)))))", Ok(0x8000_0000)),
    ("(*(*(*(*(o*)))))", Ok(0xBFFF_FFFF)),
    // 15: no tree text.
    ("", NONE),
    ("x", NONE),
    ("O", NONE),
    ("0", NONE),
    ("\0", NONE),
    ("(", NONE),
    (")", NONE),
    ("()", NONE),
    ("(o)", NONE),
    ("(o", NONE),
    ("(o*", NONE),
    ("o*)", NONE),
    ("o*", NONE),
    (")o*(", NONE),
    ("(o*)o", NONE),
    ("(o*)(*o)", NONE),
    ("(o*))", NONE),
    ("((o*)", NONE),
    ("((o*))", NONE),
    ("(o*o)", NONE),
    ("(o*()", NONE),
    ("(ox)", NONE),
    ("(o *)", NONE),
    (" (o*)", NONE),
    ("(o*)\n", NONE),
    ("(o*)\0", NONE),
    ("[o*]", NONE),
    ("(o,*)", NONE),
    // 16: a pair that could be folded.
    ("(oo)", FOLDS),
    ("(**)", FOLDS),
    ("((oo)*)", FOLDS),
    ("(o(**))", FOLDS),
    ("((oo)o)", FOLDS),
    ("((oo)(oo))", FOLDS),
    ("((o*)(**))", FOLDS),
    ("((((*o)o)o)(o(o(**))))", FOLDS),
    // 17: taller than 5.
    ("((((((o*)o)o)o)o)o)", TALL),
    ("(o(o(o(o(o(o*))))))", TALL),
    ("(*(o(*(o(*(o*))))))", TALL),
    ("((o*)((((((*o)*)o)*)o)*))", TALL),
    // 15 before 16.
    ("(oo", NONE),
    ("oo)", NONE),
    ("(oo)o", NONE),
    ("((oo)x)", NONE),
    ("(x(oo))", NONE),
    // 15 before 17.
    ("((((((o*)o)o)o)o)o", NONE),
    ("((((((o*)o)o)o)o)o)*", NONE),
    ("((((((", NONE),
    ("(((((((((((((((((((((((((((((((", NONE),
    // 16 before 17.
    ("((((((oo)o)o)o)o)o)", FOLDS),
    ("((((((oo)*)*)*)*)*)", FOLDS),
    ("((((((o*)o)o)o)o)(**))", FOLDS),
    ("((oo)(o(o(o(o(o*))))))", FOLDS),
    // 15 before 16 and 17.
    ("((((((oo)o)o)o)o)o))", NONE),
    ("((((((oo)o)o)o)o)x)", NONE),
    ("((((((o*)o)o)o)o)(**)", NONE),
];

/// The place of each leaf, and how many pairs it is in.
fn leaves(text: &[u8]) -> Vec<(usize, usize)> {
    let mut depth = 0;
    let mut leaves = Vec::new();
    for (at, sign) in text.iter().enumerate() {
        match sign {
            b'(' => depth += 1,
            b')' => depth -= 1,
            _ => leaves.push((at, depth)),
        }
    }
    leaves
}

/// The text of a tree of this height with so many pairs, none of which could be folded. There are at least as many as the
/// height, and a tree of this height has room for them.
pub fn grown(random: &mut Random, height: usize, pairs: usize) -> Vec<u8> {
    let mut text = vec![random.pick(&LEAVES)];
    for count in 0..pairs {
        let depths = if count < height {
            count..=count
        } else {
            0..=height - 1
        };
        let mut leaves = leaves(&text);
        leaves.retain(|(_, depth)| depths.contains(depth));
        let (at, _) = random.pick(&leaves);
        text.splice(at..=at, random.pick(&PAIRS));
    }
    text
}

/// What reading a grown text of this height gives: from the left, each leaf is as wide as its depth leaves room for.
pub fn due_of_grown(text: &[u8], height: usize) -> Read {
    if height > CONSTANT_HEIGHT as usize {
        return TALL;
    }
    let mut wide = Vec::new();
    for (at, depth) in leaves(text) {
        let width = 1 << (CONSTANT_HEIGHT as usize - depth);
        wide.extend(vec![text[at] == b'*'; width]);
    }
    let bits = wide.iter().enumerate();
    Ok(bits.map(|(bit, full)| u32::from(*full) << bit).sum())
}

/// A grown text with as many pairs as come, up to so many.
pub fn grown_within(random: &mut Random, height: usize, most_pairs: usize) -> Vec<u8> {
    let room = (1 << height) - 1;
    let pairs = random.between(height, most_pairs.min(room));
    grown(random, height, pairs)
}

/// A tree text with one of its pairs of two leaves, of which there is one at least, made one that could be folded.
pub fn unfolded(random: &mut Random, text: &[u8]) -> Vec<u8> {
    let places = 0..text.len() - 3;
    let pairs: Vec<usize> = places
        .filter(|at| PAIRS.iter().any(|pair| text[*at..].starts_with(pair)))
        .collect();
    let at = random.pick(&pairs);
    let mut text = text.to_vec();
    text[at + 1] = text[at + 2];
    text
}

/// A text with one slip of the hand: a sign left out, put in, changed or doubled, the end left out, or more behind it.
fn mistyped(random: &mut Random, text: &[u8]) -> Vec<u8> {
    let mut text = text.to_vec();
    let sign = random.pick(&SIGNS);
    if text.is_empty() {
        return vec![sign];
    }
    let at = random.below(text.len());
    match random.below(6) {
        0 => drop(text.remove(at)),
        1 => text.insert(at, sign),
        2 => text[at] = sign,
        3 => text.insert(at, text[at]),
        4 => text.truncate(at),
        _ => text.extend((0..=random.below(4)).map(|_| sign)),
    }
    text
}

/// A grown text, often a low one and at most two pairs too long. It may have a pair that could be folded, and it may be mistyped, once or
/// twice.
pub fn some_text(random: &mut Random) -> Vec<u8> {
    let tallest = random.pick(&[CONSTANT_HEIGHT as usize + 1, MOST_PAIRS + 2]);
    let height = random.below(tallest + 1);
    let mut text = grown_within(random, height, MOST_PAIRS + 2);
    if height > 0 && random.once_in(3) {
        text = unfolded(random, &text);
    }
    for _ in 0..random.below(3) {
        text = mistyped(random, &text);
    }
    text
}
