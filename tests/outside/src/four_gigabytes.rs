//! Buffers of 2^24 to over 2^32 bytes: lengths whose low bits alone say that they are too short, or just right. The
//! memory is mapped and never reserved; of what a call touched every byte is looked at.

use crate::asking::{ask, case};
use crate::handed::judge_gives;
use crate::mapping::{page_bytes, Access, Mapping};
use crate::memory::{Heap, Memory};
use crate::samples;
use crate::texts::{constant_gives, row, text_gives};
use brute::calls::text_due;
use brute::due::decided;
use brute::handed::{judged, packed as packed_judged};
use brute::judge::{ANSWER_BYTES, ROW_BYTES};
use brute::library::{ASK_WORK_BYTES, LONGEST_TEXT};
use brute::make::random_row;
use brute::random::Random;
use brute::report::{Family, Report};
use brute::tree_text::{packed, NOT_TREE_TEXT};

pub const FAMILIES: &[Family] = &[("buffers of 16 MiB to 4 GiB", four_gigabytes)];

const LENGTHS: [usize; 3] = [1 << 24, 1 << 31, 1 << 32];
/// So many bytes at the start are written before a call and compared after it.
const HEAD: usize = 1 << 16;

/// A long mapping, zero but for its head, of which the first bytes are lent.
struct Long {
    mapping: Mapping,
    length: usize,
}

impl Long {
    fn new() -> Result<Long, String> {
        let most = LENGTHS[LENGTHS.len() - 1] + HEAD;
        let mapping = Mapping::new(most, Access::ReadAndWrite)?;
        Ok(Long { mapping, length: 0 })
    }

    /// Lends so many bytes; the first hold `content`, the rest of the head is filled.
    fn lend(&mut self, length: usize, content: &[u8], filling: u8) -> &mut Long {
        self.length = length;
        // The head is mapped, and may be written.
        let head = unsafe { std::slice::from_raw_parts_mut(self.mapping.start(), HEAD) };
        head.fill(filling);
        head[..content.len()].copy_from_slice(content);
        self
    }

    /// Whether all that was touched behind the head is still zero.
    fn rest_is_zero(&self) -> bool {
        let page = page_bytes();
        let pages = self.mapping.touched();
        let mut touched = (HEAD / page..pages.len()).filter(|number| pages[*number]);
        touched.all(|number| {
            // The page lies within the mapping, which may be read.
            let bytes = unsafe {
                std::slice::from_raw_parts(self.mapping.start().add(number * page), page)
            };
            bytes.iter().all(|byte| *byte == 0)
        })
    }

    /// What a call gave, unless it wrote behind the head.
    fn checked<T>(&self, given: Result<T, String>) -> Result<T, String> {
        match self.rest_is_zero() {
            true => given,
            false => Err(format!(
                "a byte far behind was changed; length {}",
                self.length
            )),
        }
    }
}

impl Memory for Long {
    fn pointer(&mut self) -> *mut u8 {
        self.mapping.start()
    }

    fn length(&self) -> usize {
        self.length
    }

    fn all(&self) -> &[u8] {
        // The head is mapped, and may be read.
        unsafe { std::slice::from_raw_parts(self.mapping.start(), HEAD) }
    }

    fn start(&self) -> usize {
        0
    }
}

fn four_gigabytes(report: &mut Report) {
    let mut random = report.random();
    let mut long = match Long::new() {
        Ok(long) => long,
        Err(fault) => return report.case(Err(fault)),
    };
    for length in LENGTHS {
        asking(report, &mut random, &mut long, length);
        questions(report, &mut random, &mut long, length);
        rows_and_texts(report, &mut random, &mut long, length);
        tree_texts(report, &mut random, &mut long, length);
        handed_rows(report, &mut random, &mut long, length);
    }
}

/// A long answer buffer, then a long work area.
fn asking(report: &mut Report, random: &mut Random, long: &mut Long, least: usize) {
    for (bytes, decided) in samples::one_of_each() {
        for more in [
            0,
            1,
            ANSWER_BYTES - 1,
            ANSWER_BYTES,
            ASK_WORK_BYTES - 1,
            ASK_WORK_BYTES,
        ] {
            for long_answer in [true, false] {
                let mut question = Heap::holding(random, 0, &bytes);
                let lent = long.lend(least + more, &[], random.byte());
                let given = if long_answer {
                    let mut work = Heap::new(random, 0, ASK_WORK_BYTES);
                    ask(&decided, &mut question, lent, &mut work)
                } else {
                    let mut answer = Heap::new(random, 0, ANSWER_BYTES);
                    ask(&decided, &mut question, &mut answer, lent)
                };
                report.case(case(&bytes, long.checked(given)));
            }
        }
    }
}

/// A long question: bytes 00 follow its end. With as many as are lent here its low bits say that it ends there.
fn questions(report: &mut Report, random: &mut Random, long: &mut Long, least: usize) {
    for (bytes, _) in samples::one_of_each() {
        let decided = decided(&[&bytes[..], &[0; 8]].concat());
        for length in [least, least + bytes.len(), least + bytes.len() + 1] {
            let mut answer = Heap::new(random, 0, ANSWER_BYTES);
            let mut work = Heap::new(random, 0, ASK_WORK_BYTES);
            let lent = long.lend(length, &bytes, 0);
            let given = ask(&decided, lent, &mut answer, &mut work);
            report.case(case(&bytes, long.checked(given)));
        }
    }
}

fn rows_and_texts(report: &mut Report, random: &mut Random, long: &mut Long, least: usize) {
    for more in [0, ANSWER_BYTES - 1, ANSWER_BYTES] {
        for variable in [0, 11, 12] {
            let given = row(long.lend(least + more, &[], random.byte()), variable);
            report.case(long.checked(given));
        }
    }
    for height in [0, 5, 10] {
        let content = random_row(random, height);
        let due = text_due(&content, LONGEST_TEXT);
        for more in [0, due.1.len() - 1, due.1.len()] {
            let mut from = Heap::holding(random, 0, &content);
            let to = long.lend(least + more, &[], random.byte());
            let given = text_gives(&mut from, to, due.clone());
            report.case(long.checked(given));
        }
        for more in [0, ROW_BYTES] {
            let mut to = Heap::new(random, 0, LONGEST_TEXT);
            let from = long.lend(least + more, &content, random.byte());
            let given = text_gives(from, &mut to, (14 << 32, Vec::new()));
            report.case(long.checked(given));
        }
    }
}

/// A long tree text. With as many bytes as are lent here its low bits say that it ends where the tree does.
fn tree_texts(report: &mut Report, random: &mut Random, long: &mut Long, least: usize) {
    let due = packed(Err(NOT_TREE_TEXT));
    for text in samples::few_tree_texts(random) {
        for more in [0, text.len()] {
            let given = constant_gives(long.lend(least + more, &text, random.byte()), due);
            report.case(long.checked(given));
        }
    }
}

/// Long rows, then a long question. With as many bytes as are lent here their low bits say that they end where they should.
fn handed_rows(report: &mut Report, random: &mut Random, long: &mut Long, least: usize) {
    for (bytes, rows) in samples::few_handed() {
        for more in [0, ANSWER_BYTES - 1, ANSWER_BYTES] {
            let due = packed_judged(judged(&bytes, &[]));
            let mut question = Heap::holding(random, 0, &bytes);
            let given = judge_gives(&mut question, long.lend(least + more, &rows, 0), due);
            report.case(long.checked(given));
        }
        for more in [0, bytes.len()] {
            let due = packed_judged(judged(&[&bytes[..], &[0; 8]].concat(), &rows));
            let mut heap = Heap::holding(random, 0, &rows);
            let given = judge_gives(long.lend(least + more, &bytes, 0), &mut heap, due);
            report.case(long.checked(given));
        }
    }
}
