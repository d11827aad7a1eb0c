//! What a family has seen, so that nothing it is for goes untried.

use crate::question::Question;
use crate::report::Report;
use crate::single::Outcome;

#[derive(Default)]
pub struct Seen {
    /// How often kind 0 was answered no, and yes.
    pub satisfiable: [usize; 2],
    /// How often kind 1 was answered with each reason.
    pub reasons: [usize; 4],
    /// How often the disequation number was above 0.
    pub higher_numbers: usize,
    /// How often each refusal number was given; 0 counts what was not refused.
    pub refusals: [usize; 18],
}

/// Each of these was seen so often.
pub fn enough(report: &mut Report, what: &str, counts: &[usize], least: usize) {
    report.apart(if counts.iter().all(|count| *count >= least) {
        Ok(())
    } else {
        Err(format!("{what} seen too seldom: {counts:?}"))
    });
}

impl Seen {
    pub fn note(&mut self, question: &Question, outcome: &Outcome) {
        self.refusals[0] += 1;
        if question.entailment {
            self.reasons[usize::from(outcome.reason)] += 1;
            self.higher_numbers += usize::from(outcome.disequation > 0);
        } else {
            self.satisfiable[usize::from(outcome.yes)] += 1;
        }
    }

    pub fn note_refusal(&mut self, number: u8) {
        self.refusals[usize::from(number)] += 1;
    }

    /// Both verdicts of kind 0 were seen so often.
    pub fn kind_0(&self, report: &mut Report, least: usize) {
        enough(report, "verdicts of kind 0", &self.satisfiable, least);
    }

    /// Each reason of kind 1 was seen so often, and a disequation number above 0.
    pub fn kind_1(&self, report: &mut Report, least: usize) {
        enough(report, "reasons", &self.reasons, least);
        enough(report, "higher numbers", &[self.higher_numbers], 1);
    }

    /// Each of these refusals was seen so often.
    pub fn refused(&self, report: &mut Report, numbers: &[usize], least: usize) {
        let counts: Vec<usize> = numbers.iter().map(|n| self.refusals[*n]).collect();
        enough(report, "refusals", &counts, least);
    }
}
