//! Where the commands of some bytes begin and end, also where the bytes are faulty.

use brute::question::operand_count;
use std::ops::Range;

/// The bytes of each command. An unknown command byte stands alone; a last command may be cut short.
pub fn commands(bytes: &[u8]) -> Vec<Range<usize>> {
    let mut found = Vec::new();
    let mut at = 0;
    while at < bytes.len() {
        let end = (at + width(bytes[at])).min(bytes.len());
        found.push(at..end);
        at = end;
    }
    found
}

fn width(command: u8) -> usize {
    1 + operand_count(command).unwrap_or(0)
}
