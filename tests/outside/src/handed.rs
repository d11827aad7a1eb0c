//! Whether one call of judging gives what is due.

use crate::calls;
use crate::memory::Memory;
use brute::handed::{judged, packed};
use brute::question::hex;
use brute::ways;

/// The lent bytes of memory that is looked at whole.
fn lent(memory: &dyn Memory) -> Vec<u8> {
    memory.all()[memory.start()..memory.start() + memory.length()].to_vec()
}

/// One call of judging with memory that is looked at whole. What is due comes from the leaves; the bytes of the question must say the same of its clauses.
pub fn judge(question: &mut dyn Memory, rows: &mut dyn Memory) -> Result<(), String> {
    let (bytes, handed) = (lent(question), lent(rows));
    let due = judged(&bytes, &handed);
    ways::against(&bytes, &handed, due)
        .map_or(Ok(()), Err)
        .and_then(|()| judge_gives(question, rows, packed(due)))
        .map_err(|fault| format!("{fault}; question {}, rows {}", hex(&bytes), hex(&handed)))
}

/// One call of judging that is to give this number.
pub fn judge_gives(
    question: &mut dyn Memory,
    rows: &mut dyn Memory,
    due: u64,
) -> Result<(), String> {
    let before = [question.all().to_vec(), rows.all().to_vec()];

    let number = calls::judge(question, rows);

    if number != due {
        return Err(format!("number {number:016X}, expected {due:016X}"));
    }
    if [question.all(), rows.all()] != [&before[0][..], &before[1][..]] {
        return Err("a lent byte, or one beside them, was changed".to_string());
    }
    Ok(())
}
