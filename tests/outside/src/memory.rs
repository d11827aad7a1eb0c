//! Memory that is lent to a call, among bytes that are not lent.

use brute::lent::Lent;
use brute::random::Random;

pub trait Memory {
    /// Where the lent bytes begin, as the call is told.
    fn pointer(&mut self) -> *mut u8;
    fn length(&self) -> usize;
    /// The bytes that are looked at: the lent ones (of very long memory only the first) and those round them.
    fn all(&self) -> &[u8];
    /// Where the lent bytes begin among all.
    fn start(&self) -> usize;
}

/// All bytes as they are to be once the first lent ones have become `written`.
pub fn all_with(memory: &dyn Memory, written: &[u8]) -> Vec<u8> {
    let mut all = memory.all().to_vec();
    all[memory.start()..memory.start() + written.len()].copy_from_slice(written);
    all
}

/// A null pointer, and no byte.
pub struct Null;

impl Memory for Null {
    fn pointer(&mut self) -> *mut u8 {
        std::ptr::null_mut()
    }

    fn length(&self) -> usize {
        0
    }

    fn all(&self) -> &[u8] {
        &[]
    }

    fn start(&self) -> usize {
        0
    }
}

/// How many bytes that are not lent stand before the lent ones, at least, and after them.
const AROUND: usize = 64;
pub const ALIGNMENTS: usize = 16;

/// Ordinary memory at an address that leaves a chosen rest when divided by 16.
pub struct Heap {
    bytes: Vec<u8>,
    start: usize,
    length: usize,
}

impl Heap {
    /// So many bytes, all of them random.
    pub fn new(random: &mut Random, alignment: usize, length: usize) -> Heap {
        let bytes = random.bytes(AROUND + ALIGNMENTS + length + AROUND);
        let rest = (bytes.as_ptr() as usize + AROUND) % ALIGNMENTS;
        let start = AROUND + (ALIGNMENTS + alignment - rest) % ALIGNMENTS;
        Heap {
            bytes,
            start,
            length,
        }
    }

    pub fn holding(random: &mut Random, alignment: usize, content: &[u8]) -> Heap {
        let mut heap = Heap::new(random, alignment, content.len());
        heap.bytes[heap.start..heap.start + content.len()].copy_from_slice(content);
        heap
    }

    /// Lends only the first of its bytes.
    pub fn shorten(&mut self, length: usize) {
        self.length = self.length.min(length);
    }
}

impl Memory for Heap {
    fn pointer(&mut self) -> *mut u8 {
        self.bytes[self.start..].as_mut_ptr()
    }

    fn length(&self) -> usize {
        self.length
    }

    fn all(&self) -> &[u8] {
        &self.bytes
    }

    fn start(&self) -> usize {
        self.start
    }
}

impl Memory for Lent {
    fn pointer(&mut self) -> *mut u8 {
        self.part_mut().as_mut_ptr()
    }

    fn length(&self) -> usize {
        self.part().len()
    }

    fn all(&self) -> &[u8] {
        self.all()
    }

    fn start(&self) -> usize {
        self.start()
    }
}
