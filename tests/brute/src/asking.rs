//! Asks the library and compares all that it gives with what is due: every field of the number, and every lent
//! byte before and after. Rows that it shows are handed over to be judged, and must be accepted. If an entailment holds, rows that it shows of the first system alone
//! must extend.

use crate::due::{decided, due, Answered, Decided};
use crate::handed::{judged, packed, Judged, Judgement};
use crate::handed_rows::changed;
use crate::judge::{judge, ANSWER_BYTES};
use crate::judger;
use crate::lent::{Lent, CONTENTS};
use crate::library::{self, ASK_WORK_BYTES};
use crate::question::{hex, write, write_in_order, Question};
use crate::random::Random;
use crate::report::Report;
use crate::seen::Seen;
use crate::single::{decide, satisfiable, Outcome};

/// How much longer than need be a buffer is at most, mostly.
const MORE: usize = 300;

/// The lengths of the two buffers.
pub type Lengths = (usize, usize);
pub const EXACT: Lengths = (ANSWER_BYTES, ASK_WORK_BYTES);

/// A question whose answer is told by how it was made, and perhaps the rows of the shown solution.
#[derive(Clone, Debug)]
pub struct Built {
    pub question: Question,
    pub outcome: Outcome,
    pub rows: Option<Vec<u8>>,
}

/// Asks one question after the other with the same memory.
pub struct Asker<'a> {
    pub report: &'a mut Report,
    pub random: Random,
    pub seen: Seen,
    question: Lent,
    answer: Lent,
    work: Lent,
}

impl Asker<'_> {
    pub fn new(report: &mut Report) -> Asker<'_> {
        let mut random = report.random();
        Asker {
            report,
            question: Lent::new(&mut random, 1000),
            answer: Lent::new(&mut random, ANSWER_BYTES + MORE),
            work: Lent::new(&mut random, ASK_WORK_BYTES + MORE),
            random,
            seen: Seen::default(),
        }
    }

    /// Lengths of buffers that are long enough, often exactly so.
    pub fn enough(&mut self) -> Lengths {
        let random = &mut self.random;
        let mut more = || {
            if random.once_in(2) {
                0
            } else {
                random.below(MORE)
            }
        };
        (ANSWER_BYTES + more(), ASK_WORK_BYTES + more())
    }

    /// One case of asking: any bytes, buffers of any length.
    pub fn bytes(&mut self, bytes: &[u8], lengths: Lengths) {
        self.case(bytes, lengths, &decided(bytes));
    }

    /// One case of asking: a question, its two systems mixed at random. What is due comes from route B and the fixed
    /// solution.
    pub fn question(&mut self, question: &Question) {
        let bytes = self.mixed(question);
        let lengths = self.enough();
        self.bytes(&bytes, lengths);
    }

    /// The same of a question that was built. That route B gives what was built is checked apart.
    pub fn built(&mut self, built: &Built) {
        let outcome = decide(&built.question);
        self.as_built(built, "route B", outcome == built.outcome);
        self.told(built);
    }

    /// The same without route B. If the rows are known, it is checked apart that they are the fixed solution's.
    pub fn told(&mut self, built: &Built) {
        let answered = Answered::new(built.question.clone(), built.outcome);
        if built.rows.is_some() {
            self.as_built(built, "the fixed solution", answered.rows == built.rows);
        }
        let bytes = self.mixed(&built.question);
        let lengths = self.enough();
        self.case(&bytes, lengths, &Decided::Answered(answered));
    }

    /// Checks apart that a wrong result is noticed.
    pub fn notices(&mut self, bytes: &[u8], wrong: &Decided) {
        let lengths = self.enough();
        let fault = self.fault_of_call(bytes, lengths, wrong);
        self.report.apart(match fault {
            Some(_) => Ok(()),
            None => Err(format!("{}: a wrong result is not noticed", hex(bytes))),
        });
    }

    fn as_built(&mut self, built: &Built, what: &str, same: bool) {
        self.report.apart(match same {
            true => Ok(()),
            false => {
                let bytes = hex(&write_in_order(&built.question));
                Err(format!("{bytes}: {what} is not as built"))
            }
        });
    }

    /// The question in bytes, its two systems mixed at random.
    pub fn mixed(&mut self, question: &Question) -> Vec<u8> {
        write(question, || self.random.once_in(2))
    }

    fn case(&mut self, bytes: &[u8], lengths: Lengths, decided: &Decided) {
        match decided {
            Decided::Refused(refusal) => self.seen.note_refusal(refusal.number),
            Decided::Answered(one) => self.seen.note(&one.question, &one.outcome),
        }
        let fault = self.fault_of_call(bytes, lengths, decided);
        let right = fault.is_none();
        self.report.case(match fault {
            None => Ok(()),
            Some(fault) => Err(format!("{} with {lengths:?}: {fault}", hex(bytes))),
        });
        let Decided::Answered(one) = decided else {
            return;
        };
        if !right || lengths.0 < ANSWER_BYTES || lengths.1 < ASK_WORK_BYTES {
            return;
        }
        if one.rows.is_some() {
            self.hand_over(bytes, &one.question, Judgement::Accepted);
        }
        if one.question.entailment && (one.outcome.yes, one.outcome.reason) == (true, 0) {
            self.hand_over_first_alone(bytes, &one.question);
        }
    }

    /// Cases of judging: the rows in the answer buffer are judged so, from the very buffer. Once in 8 they are handed over with a change too, and what is due comes from
    /// the leaves.
    fn hand_over(&mut self, bytes: &[u8], question: &Question, due: Judgement) {
        self.judging(bytes, Ok(due));
        if self.random.once_in(8) {
            let rows = &self.answer.part()[..ANSWER_BYTES];
            let rows = changed(&mut self.random, question, rows);
            self.answer.lend_holding(&mut self.random, &rows);
            let due = judged(bytes, &rows);
            judger::compare_bytes(self.report, bytes, &rows, due);
            self.judging(bytes, due);
        }
    }

    /// One case of judging, of the question that is lent and the rows in the answer buffer.
    fn judging(&mut self, bytes: &[u8], due: Judged) {
        let fault = judger::fault(&self.question, &self.answer, ANSWER_BYTES, packed(due));
        self.report.case(match fault {
            None => Ok(()),
            Some(fault) => {
                let rows = &self.answer.part()[..ANSWER_BYTES];
                Err(judger::told(bytes, rows, &fault))
            }
        });
    }

    /// The first system of an entailment that holds is asked alone, which is a case of asking. All its solutions extend, so the rows that are shown do.
    fn hand_over_first_alone(&mut self, bytes: &[u8], question: &Question) {
        let alone = question.first_alone();
        let alone_bytes = write_in_order(&alone);
        let outcome = satisfiable(&alone);
        let answered = Decided::Answered(Answered::new(alone, outcome));
        let fault = self.fault_of_call(&alone_bytes, EXACT, &answered);
        let right = fault.is_none();
        self.report.case(match fault {
            None => Ok(()),
            Some(fault) => Err(format!("{}: {fault}", hex(&alone_bytes))),
        });
        if right {
            self.question.lend_holding(&mut self.random, bytes);
            self.hand_over(bytes, question, Judgement::Extends);
        }
    }

    /// Lends the question and the buffers, which hold something of each sort in turn.
    fn lend(&mut self, bytes: &[u8], (answer, work): Lengths) {
        let random = &mut self.random;
        self.question.lend_holding(random, bytes);
        for (lent, length) in [(&mut self.answer, answer), (&mut self.work, work)] {
            let content = random.pick(&CONTENTS);
            lent.lend(random, length, content);
        }
    }

    /// What is wrong with one call of asking, if anything is.
    fn fault_of_call(
        &mut self,
        bytes: &[u8],
        lengths: Lengths,
        decided: &Decided,
    ) -> Option<String> {
        self.lend(bytes, lengths);
        let due = due(decided, lengths.0, lengths.1);
        let question_due = self.question.all().to_vec();
        let answer_due = self.answer.all_with(&due.answer);
        let work_due = self.work.all_with(&due.work);
        let (answer, work) = (self.answer.part_mut(), self.work.part_mut());

        let number = library::ask(self.question.part(), answer, work);

        if number != due.number {
            let due = due.number;
            return Some(format!("number {number:016X}, expected {due:016X}"));
        }
        if let (Decided::Answered(one), false) = (decided, due.answer.is_empty()) {
            let shown = &self.answer.part()[..ANSWER_BYTES];
            if let Err(flaw) = judge(&one.question, &one.outcome, shown) {
                return Some(format!("shown rows are wrong: {flaw:?}: {}", hex(shown)));
            }
            if shown != due.answer {
                return Some(format!("shown {}, fixed {}", hex(shown), hex(&due.answer)));
            }
        }
        [
            ("question", &self.question, question_due),
            ("answer buffer", &self.answer, answer_due),
            ("work area", &self.work, work_due),
        ]
        .into_iter()
        .find(|(_, lent, due)| lent.all() != due)
        .map(|(name, ..)| format!("the {name}, or a byte beside it, is not as due"))
    }
}
