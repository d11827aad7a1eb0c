//! What the text call, the row call and the call that reads a constant are to give, and whether one call gives that.

use crate::calls;
use crate::memory::{all_with, Memory};
use brute::calls::{constant_due, row_due, text_due};
use brute::question::hex;

/// One call of the text call with a row that is looked at whole.
pub fn text(row: &mut dyn Memory, text: &mut dyn Memory) -> Result<(), String> {
    let lent = row.all()[row.start()..row.start() + row.length()].to_vec();
    let due = text_due(&lent, text.length());
    match text_gives(row, text, due) {
        Ok(()) => Ok(()),
        Err(fault) => {
            let room = text.length();
            Err(format!(
                "{fault}; row {}, text buffer of {room}",
                hex(&lent)
            ))
        }
    }
}

/// One call of the text call that is to give this number and write this text.
pub fn text_gives(
    row: &mut dyn Memory,
    text: &mut dyn Memory,
    (due, written): (u64, Vec<u8>),
) -> Result<(), String> {
    let row_before = row.all().to_vec();
    let text_after = all_with(text, &written);

    let number = calls::text(row, text);

    if number != due {
        return Err(format!("number {number:X}, expected {due:X}"));
    }
    if row.all() != row_before {
        return Err("the row, or a byte beside it, was changed".to_string());
    }
    if text.all() != text_after {
        return Err("the text buffer, or a byte beside it, is not as due".to_string());
    }
    Ok(())
}

/// One call of the row call.
pub fn row(answer: &mut dyn Memory, variable: usize) -> Result<(), String> {
    let due = row_due(answer.length(), variable);
    let answer_due = answer.all().to_vec();

    let number = calls::row(answer, variable);

    if number != due {
        let length = answer.length();
        return Err(format!(
            "number {number:X}, expected {due:X}; answer buffer of {length}, variable {variable}"
        ));
    }
    if answer.all() != answer_due {
        return Err("the answer buffer, or a byte beside it, was changed".to_string());
    }
    Ok(())
}

/// One call that reads a constant from a text that is looked at whole.
pub fn constant(text: &mut dyn Memory) -> Result<(), String> {
    let lent = text.all()[text.start()..text.start() + text.length()].to_vec();
    let given = constant_gives(text, constant_due(&lent));
    given.map_err(|fault| format!("{fault}; text {}", lent.escape_ascii()))
}

/// One call that reads a constant and is to give this number.
pub fn constant_gives(text: &mut dyn Memory, due: u64) -> Result<(), String> {
    let text_before = text.all().to_vec();

    let number = calls::constant(text);

    if number != due {
        return Err(format!("number {number:X}, expected {due:X}"));
    }
    if text.all() != text_before {
        return Err("the text, or a byte beside it, was changed".to_string());
    }
    Ok(())
}
