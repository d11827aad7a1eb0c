//! Bytes lent to a call, between bytes that are not lent. The same memory is lent again and again; what it holds
//! when it is lent is random, zero, zero but for one byte, or what the call before left.

use crate::random::Random;

/// What lent bytes hold before a call. The bytes round them are random but for `Kept`.
#[derive(Clone, Copy, Debug, PartialEq, Eq)]
pub enum Content {
    Random,
    Zero,
    /// Zero but for one byte.
    OneByte,
    /// What the call before left.
    Kept,
}

pub const CONTENTS: [Content; 4] = [
    Content::Random,
    Content::Zero,
    Content::OneByte,
    Content::Kept,
];

/// At least so many bytes stand before the lent ones and behind them, and at most `MOST_AROUND` before.
const AROUND: usize = 16;
const MOST_AROUND: usize = 80;

pub struct Lent {
    bytes: Vec<u8>,
    start: usize,
    length: usize,
}

impl Lent {
    /// Memory with room for so many bytes, none of them lent yet.
    pub fn new(random: &mut Random, room: usize) -> Lent {
        Lent {
            bytes: random.bytes(MOST_AROUND + room + AROUND),
            start: random.between(AROUND, MOST_AROUND),
            length: 0,
        }
    }

    /// So many bytes, all of them random.
    pub fn random(random: &mut Random, length: usize) -> Lent {
        let mut lent = Lent::new(random, length);
        lent.length = length;
        lent
    }

    /// Memory of its own for these bytes.
    pub fn holding(random: &mut Random, content: &[u8]) -> Lent {
        let mut lent = Lent::random(random, content.len());
        lent.part_mut().copy_from_slice(content);
        lent
    }

    /// Lends so many bytes of this memory.
    pub fn lend(&mut self, random: &mut Random, length: usize, content: Content) {
        if self.bytes.len() < MOST_AROUND + length + AROUND {
            *self = Lent::new(random, length);
        }
        self.length = length;
        if content == Content::Kept {
            return;
        }
        random.fill(&mut self.bytes);
        self.start = random.between(AROUND, MOST_AROUND);
        if content != Content::Random {
            self.part_mut().fill(0);
        }
        if content == Content::OneByte && length > 0 {
            let at = random.below(length);
            self.part_mut()[at] = random.between(1, 255) as u8;
        }
    }

    /// Lends these bytes. What stands round them is what stood there before.
    pub fn lend_holding(&mut self, random: &mut Random, content: &[u8]) {
        self.lend(random, content.len(), Content::Kept);
        self.part_mut().copy_from_slice(content);
    }

    pub fn part(&self) -> &[u8] {
        &self.bytes[self.start..self.start + self.length]
    }

    pub fn part_mut(&mut self) -> &mut [u8] {
        &mut self.bytes[self.start..self.start + self.length]
    }

    /// Where the lent bytes begin among all.
    pub fn start(&self) -> usize {
        self.start
    }

    /// All bytes, with those round the lent ones.
    pub fn all(&self) -> &[u8] {
        &self.bytes
    }

    /// All bytes as they are to be once the first lent ones have become `written`.
    pub fn all_with(&self, written: &[u8]) -> Vec<u8> {
        let mut all = self.bytes.clone();
        all[self.start..self.start + written.len()].copy_from_slice(written);
        all
    }
}
