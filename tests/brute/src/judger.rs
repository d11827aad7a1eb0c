//! Hands rows over to the library and compares all that it gives with what is due: the whole number, and every lent byte before and after.

use crate::handed::{judged, packed, Judged, Judgement};
use crate::handed_trees;
use crate::judge::ANSWER_BYTES;
use crate::lent::Lent;
use crate::library;
use crate::question::{hex, read, write, Question};
use crate::random::Random;
use crate::report::Report;
use crate::seen::enough;
use crate::ways;
use crate::whole::Trees;

/// What was given in the family so far.
#[derive(Default)]
pub struct Given {
    /// Of each kind.
    pub accepted: [usize; 2],
    pub broken: [usize; 2],
    pub extends: usize,
    /// How often a disequation was broken, and a positive clause each way.
    pub ways: [usize; 4],
    /// How often each refusal number was given.
    pub refusals: [usize; 20],
    /// How often it was compared with whole trees: accepted, broken, extends.
    pub by_trees: [usize; 3],
}

/// Hands over rows again and again, with the same memory.
pub struct Judger<'a> {
    pub report: &'a mut Report,
    pub random: Random,
    pub given: Given,
    trees: Trees,
    question: Lent,
    rows: Lent,
}

impl Judger<'_> {
    pub fn new(report: &mut Report) -> Judger<'_> {
        let mut random = report.random();
        Judger {
            report,
            question: Lent::new(&mut random, 1000),
            rows: Lent::new(&mut random, ANSWER_BYTES),
            random,
            given: Given::default(),
            trees: Trees::new(),
        }
    }

    /// One case of judging: any bytes for a question, any for the rows. What is due comes from the leaves.
    pub fn bytes(&mut self, bytes: &[u8], rows: &[u8]) {
        self.told(bytes, rows, judged(bytes, rows));
    }

    /// The same of a question, its two systems mixed at random. That whole trees say the same is checked apart, where they can be tried.
    pub fn question(&mut self, question: &Question, rows: &[u8]) {
        let bytes = self.mixed(question);
        let due = judged(&bytes, rows);
        self.compare_trees(&bytes, rows, due);
        self.told(&bytes, rows, due);
    }

    /// The same where it is known beforehand what is due. That the leaves say so, and whole trees where they can be tried, is checked
    /// apart.
    pub fn known(&mut self, bytes: &[u8], rows: &[u8], due: Judged) {
        self.compare_trees(bytes, rows, due);
        self.known_by_leaf(bytes, rows, due);
    }

    /// The same without whole trees.
    pub fn known_by_leaf(&mut self, bytes: &[u8], rows: &[u8], due: Judged) {
        let by_leaf = judged(bytes, rows);
        self.report.apart(match by_leaf == due {
            true => Ok(()),
            false => Err(told(
                bytes,
                rows,
                &format!("leaf by leaf {by_leaf:?}, due {due:?}"),
            )),
        });
        self.told(bytes, rows, due);
    }

    /// One case of judging that is to give this. That the bytes of the question say so of its clauses is checked apart.
    pub fn told(&mut self, bytes: &[u8], rows: &[u8], due: Judged) {
        self.note(bytes, due);
        compare_bytes(self.report, bytes, rows, due);
        self.gives(bytes, rows, packed(due));
    }

    /// The same of a number, which is not noted.
    pub fn gives(&mut self, bytes: &[u8], rows: &[u8], number: u64) {
        let fault = self.fault_of_call(bytes, rows, number);
        self.report.case(match fault {
            None => Ok(()),
            Some(fault) => Err(told(bytes, rows, &fault)),
        });
    }

    /// The question in bytes, its two systems mixed at random.
    pub fn mixed(&mut self, question: &Question) -> Vec<u8> {
        write(question, || self.random.once_in(2))
    }

    fn note(&mut self, bytes: &[u8], due: Judged) {
        let kind = usize::from(bytes.get(1) == Some(&1));
        match due {
            Err(refusal) => self.given.refusals[usize::from(refusal.number)] += 1,
            Ok(Judgement::Accepted) => self.given.accepted[kind] += 1,
            Ok(Judgement::Broken(_, failing)) => {
                self.given.broken[kind] += 1;
                self.given.ways[failing.map_or(0, |at| at.way as usize)] += 1;
            }
            Ok(Judgement::Extends) => self.given.extends += 1,
        }
    }

    fn compare_trees(&mut self, bytes: &[u8], rows: &[u8], due: Judged) {
        let (Ok(due), Ok(question)) = (due, read(bytes)) else {
            return;
        };
        let Some(by_trees) = handed_trees::judged(&self.trees, &question, rows) else {
            return;
        };
        let sort = match by_trees {
            Judgement::Accepted => 0,
            Judgement::Broken(..) => 1,
            Judgement::Extends => 2,
        };
        self.given.by_trees[sort] += 1;
        self.report.apart(match by_trees == due {
            true => Ok(()),
            false => Err(told(
                bytes,
                rows,
                &format!("by whole trees {by_trees:?}, due {due:?}"),
            )),
        });
    }

    /// What is wrong with one call, if anything is.
    fn fault_of_call(&mut self, bytes: &[u8], rows: &[u8], due: u64) -> Option<String> {
        self.question.lend_holding(&mut self.random, bytes);
        self.rows.lend_holding(&mut self.random, rows);
        fault(&self.question, &self.rows, rows.len(), due)
    }

    /// Accepted and broken were seen so often, of both kinds, and rows that extend.
    pub fn seen_all(&mut self, least: usize) {
        let Given {
            accepted: [a, b],
            broken: [c, d],
            extends,
            ..
        } = self.given;
        let counts = [a, b, c, d, extends];
        enough(self.report, "judgements", &counts, least);
    }

    /// The same of entailments alone.
    pub fn seen_of_kind_1(&mut self, least: usize) {
        let given = &self.given;
        let counts = [given.accepted[1], given.broken[1], given.extends];
        enough(self.report, "judgements", &counts, least);
    }

    /// Whole trees said each of the three so often.
    pub fn seen_by_trees(&mut self, least: usize) {
        let counts = self.given.by_trees;
        enough(self.report, "judgements by whole trees", &counts, least);
    }

    /// A disequation was broken so often, and a positive clause each way.
    pub fn seen_ways(&mut self, least: usize) {
        let counts = self.given.ways;
        enough(self.report, "ways", &counts, least);
    }

    /// The same of positive clauses alone.
    pub fn seen_ways_of_positive(&mut self, least: usize) {
        let counts = self.given.ways;
        enough(self.report, "ways", &counts[1..], least);
    }

    pub fn seen_refusals(&mut self, numbers: &[usize], least: usize) {
        let counts: Vec<usize> = numbers.iter().map(|n| self.given.refusals[*n]).collect();
        enough(self.report, "refusals", &counts, least);
    }
}

/// What is wrong with one call that is handed a question and the first of the bytes of other memory, if anything is.
pub fn fault(question: &Lent, rows: &Lent, length: usize, due: u64) -> Option<String> {
    let before = [question, rows].map(|lent| lent.all().to_vec());

    let number = library::judge(question.part(), &rows.part()[..length]);

    if number != due {
        return Some(format!("number {number:016X}, expected {due:016X}"));
    }
    if [question, rows].map(Lent::all) != [&before[0][..], &before[1][..]] {
        return Some("a lent byte, or one beside them, was changed".to_string());
    }
    None
}

/// Checks apart that the bytes of a question that is not refused say of its clauses what is due.
pub fn compare_bytes(report: &mut Report, bytes: &[u8], rows: &[u8], due: Judged) {
    if due.is_ok() {
        report.apart(match ways::against(bytes, rows, due) {
            None => Ok(()),
            Some(fault) => Err(told(bytes, rows, &fault)),
        });
    }
}

/// A fault, with the question and the rows but for the bytes 0 at their end.
pub fn told(bytes: &[u8], rows: &[u8], fault: &str) -> String {
    let last = rows.iter().rposition(|byte| *byte != 0);
    let shown = hex(&rows[..last.map_or(0, |at| at + 1)]);
    let (bytes, length) = (hex(bytes), rows.len());
    format!("{bytes} with {length} bytes of rows, {shown}: {fault}")
}
