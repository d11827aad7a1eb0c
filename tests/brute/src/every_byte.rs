//! Questions that put every byte in one place.

use crate::question::{ClauseSort, SORTS};

/// Heads with all small counts, and some that pass a byte.
pub fn heads() -> Vec<Vec<u8>> {
    let counts: Vec<u8> = (0..=14).chain([100, 128, 134, 244, 250, 255]).collect();
    let mut heads = Vec::new();
    for kind in [0, 1, 2, 3, 128, 255] {
        for &free in &counts {
            for &own in &counts {
                heads.push(vec![0x01, kind, free, own, 0x00]);
            }
        }
    }
    heads
}

/// Every byte where a command is due, with up to five bytes behind it.
pub fn commands() -> Vec<Vec<u8>> {
    let mut questions = Vec::new();
    for (kind, clause) in [
        (0, &[][..]),
        (1, &[]),
        (0, &[0x12, 0, 0]),
        (1, &[0x22, 0, 0]),
        (0, &[0x30, 0]),
        (1, &[0x3A, 0, 0]),
    ] {
        for command in 0..=255 {
            for operands in 0..=5 {
                let mut bytes = vec![0x01, kind, 0x01, 0x00];
                bytes.extend(clause);
                bytes.push(command);
                bytes.extend([0; 5].iter().take(operands));
                questions.push(bytes.clone());
                bytes.push(0xFF);
                questions.push(bytes);
            }
        }
    }
    questions
}

/// Every byte in the place of each term of each clause.
pub fn terms() -> Vec<Vec<u8>> {
    let mut questions = Vec::new();
    for (free, own, constants) in [(2, 1, 2), (1, 0, 32), (0, 3, 1)] {
        let each = |sort: &ClauseSort| sort.commands.map(|c| (c, sort.relation.terms().len()));
        for (command, count) in SORTS.iter().flat_map(each) {
            for place in 0..count {
                for term in 0..=255 {
                    let mut bytes = vec![0x01, 0x01, free, own];
                    for _ in 0..constants {
                        bytes.extend([0x03, 0xFF, 0x00, 0xF0, 0x0F]);
                    }
                    bytes.push(command);
                    let operands = bytes.len();
                    bytes.extend([0x20, 0x20, 0x20].iter().take(count));
                    bytes[operands + place] = term;
                    bytes.push(0x00);
                    questions.push(bytes);
                }
            }
        }
    }
    questions
}
