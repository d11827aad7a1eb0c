//! Damaged bytes.

use crate::random::Random;

/// Bytes after one to three changes: a byte changed, taken out or put in, the end cut off, or more put
/// behind it.
pub fn damaged(random: &mut Random, bytes: &[u8]) -> Vec<u8> {
    let mut bytes = bytes.to_vec();
    for _ in 0..random.between(1, 3) {
        damage(random, &mut bytes);
    }
    bytes
}

fn damage(random: &mut Random, bytes: &mut Vec<u8>) {
    let at = random.below(bytes.len() + 1);
    let byte = likely_byte(random);
    match random.below(7) {
        0 => bytes.truncate(at),
        1 => bytes.insert(at, byte),
        2 if at < bytes.len() => {
            bytes.remove(at);
        }
        3 if at < bytes.len() => bytes[at] ^= 1 << random.below(8),
        4 => {
            let count = random.between(1, 1200);
            let tail = random.bytes(count);
            bytes.extend(tail);
        }
        _ if at < bytes.len() => bytes[at] = byte,
        _ => bytes.push(byte),
    }
}

/// A byte that often means something in the format.
fn likely_byte(random: &mut Random) -> u8 {
    const LIKELY: [u8; 24] = [
        0x00, 0x01, 0x02, 0x03, 0x0B, 0x0C, 0x10, 0x11, 0x12, 0x13, 0x20, 0x21, 0x22, 0x23, 0x30,
        0x31, 0x32, 0x33, 0x38, 0x39, 0x3A, 0x3B, 0x3F, 0x40,
    ];
    if random.once_in(3) {
        random.byte()
    } else {
        random.pick(&LIKELY)
    }
}
