//! Whether one call of asking gives what is due.

use crate::calls;
use crate::memory::{all_with, Memory};
use brute::due::{due, Decided};
use brute::judge::{judge, ANSWER_BYTES};
use brute::question::hex;

/// One call of asking: the number it gives, or what is wrong with it.
pub fn ask(
    decided: &Decided,
    question: &mut dyn Memory,
    answer: &mut dyn Memory,
    work: &mut dyn Memory,
) -> Result<u64, String> {
    let due = due(decided, answer.length(), work.length());
    let question_due = question.all().to_vec();
    let answer_due = all_with(answer, &due.answer);
    let work_due = all_with(work, &due.work);

    let number = calls::ask(question, answer, work);

    if number != due.number {
        return Err(format!(
            "number {number:016X}, expected {:016X}",
            due.number
        ));
    }
    if let (Decided::Answered(one), false) = (decided, due.answer.is_empty()) {
        let shown = &answer.all()[answer.start()..answer.start() + ANSWER_BYTES];
        if let Err(flaw) = judge(&one.question, &one.outcome, shown) {
            return Err(format!("shown rows are wrong: {flaw:?}"));
        }
    }
    let kept = |name, memory: &dyn Memory, all_due: Vec<u8>| match memory.all() == all_due {
        true => Ok(()),
        false => Err(format!("the {name}, or a byte beside it, is not as due")),
    };
    kept("question", question, question_due)?;
    kept("answer buffer", answer, answer_due)?;
    kept("work area", work, work_due)?;
    Ok(number)
}

/// A case for the report: the fault with the question in hexadecimal.
pub fn case(bytes: &[u8], given: Result<u64, String>) -> Result<(), String> {
    match given {
        Ok(_) => Ok(()),
        Err(fault) => Err(format!("{fault}; question {}", hex(bytes))),
    }
}
