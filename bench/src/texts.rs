//! The families of tree texts, from which constants are read. Each has one text many times, or many random ones.

use crate::families::Family;
use brute::make::random_leaves;
use brute::random::Random;
use brute::tree::{tree_of_number, CONSTANT_HEIGHT};
use brute::tree_text::MOST_PAIRS;
use brute::typed::grown;

/// So many texts are read in a round, so that reading the clock costs nothing beside them.
const TEXTS: usize = 1000;
/// No two neighbours of its 32 leaves are alike, so that all pairs are written: 94 bytes.
const ALTERNATING: u32 = 0x5555_5555;

pub fn all() -> Vec<Family> {
    let mut random = Random::new(109);
    let longest = tree_of_number(ALTERNATING).text().into_bytes();
    let cut_short = longest[..longest.len() - 1].to_vec();
    let constants = (0..TEXTS).map(|_| random_leaves(&mut random, CONSTANT_HEIGHT));
    let constants = constants.map(|leaves| tree_of_number(leaves).text().into_bytes());
    let mut families = vec![Family {
        name: "tree text, random constants".to_string(),
        inputs: constants.collect(),
    }];
    for (name, text) in [
        ("a leaf", b"*".to_vec()),
        ("three leaves", b"(o(*o))".to_vec()),
        ("32 leaves, 94 bytes", longest.clone()),
        ("95 bytes, 15", [&longest[..], b"o"].concat()),
        ("93 bytes, cut short, 15", cut_short),
        (
            "94 bytes, last pair could be folded, 16",
            last_pair_folds(&longest),
        ),
        (
            "94 bytes, height 31, 17",
            grown(&mut random, MOST_PAIRS, MOST_PAIRS),
        ),
    ] {
        families.push(Family {
            name: format!("tree text, {name}"),
            inputs: vec![text; TEXTS],
        });
    }
    families
}

/// A text that ends in a pair of two leaves, with these made alike.
fn last_pair_folds(text: &[u8]) -> Vec<u8> {
    let mut text = text.to_vec();
    let last = text.iter().rposition(|sign| *sign != b')').expect("a leaf");
    text[last] = text[last - 1];
    text
}

#[cfg(test)]
mod tests {
    use super::{all, TEXTS};
    use brute::tree_text::constant_of_text;

    /// The refusal number of all texts of each family, 0 for those that are read, and how long the repeated ones are.
    #[test]
    fn what_reading_gives() {
        let due = [0, 0, 0, 0, 15, 15, 16, 17];
        for (family, due) in all().iter().zip(due) {
            let number = |text: &Vec<u8>| constant_of_text(text).err().unwrap_or(0);
            let numbers: Vec<u8> = family.inputs.iter().map(number).collect();
            assert_eq!(numbers, [due; TEXTS], "{}", family.name);
        }
        let lengths: Vec<usize> = all()[1..].iter().map(|f| f.inputs[0].len()).collect();
        assert_eq!(lengths, [1, 7, 94, 95, 93, 94, 94]);
    }
}
