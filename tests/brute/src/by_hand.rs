//! Families of asking that were worked by hand, that put every byte in one place, and that try lengths of buffers.

use crate::asking::{Asker, EXACT};
use crate::every_byte;
use crate::judge::ANSWER_BYTES;
use crate::library::{self, ASK_WORK_BYTES, LONGEST_TEXT};
use crate::question::hex;
use crate::refusals;
use crate::report::{Family, Report};
use crate::worked;

pub const FAMILIES: &[Family] = &[
    ("worked questions", worked_questions),
    ("refusals and limits worked by hand", worked_refusals),
    ("every small head", every_head),
    ("every byte as a command", every_command),
    ("every byte as a term", every_term),
    ("lengths of buffers", lengths_of_buffers),
];

fn same_number(report: &mut Report, name: &str, bytes: &[u8], due: u64) -> Vec<u8> {
    let mut answer = vec![0xA5; ANSWER_BYTES];
    let mut work = vec![0x5A; ASK_WORK_BYTES];
    let number = library::ask(bytes, &mut answer, &mut work);
    report.case(if number == due {
        Ok(())
    } else {
        let bytes = hex(bytes);
        Err(format!(
            "{name}: {bytes}: number {number:016X}, expected {due:016X}"
        ))
    });
    answer
}

/// The worked questions through all calls: ask, take each row, write its text.
fn worked_questions(report: &mut Report) {
    let mut asker = Asker::new(report);
    for worked in worked::all() {
        let bytes = worked::bytes(worked.bytes);
        let answer = same_number(asker.report, worked.name, &bytes, worked.number());
        for (variable, text) in worked.shown.unwrap_or(&[]).iter().enumerate() {
            let what = format!("{}: {}: v{variable:02}", worked.name, hex(&bytes));
            let given = text_of(&answer, variable);
            asker
                .report
                .same(&what, given.as_deref(), Some(text.as_bytes()));
        }
        let lengths = asker.enough();
        asker.bytes(&bytes, lengths);
    }
    asker.seen.kind_0(asker.report, 2);
    asker.seen.kind_1(asker.report, 1);
}

/// The text of a variable's row, by the library's own calls; none if what they give is no part of the buffers.
fn text_of(answer: &[u8], variable: usize) -> Option<Vec<u8>> {
    let part = library::row(answer, variable);
    let (offset, length) = (part as u32 as usize, (part >> 32) as usize);
    let mut text = vec![0; LONGEST_TEXT];
    let row = answer.get(offset..offset.checked_add(length)?)?;
    let length = usize::try_from(library::text(row, &mut text)).ok()?;
    Some(text.get(..length)?.to_vec())
}

fn worked_refusals(report: &mut Report) {
    let mut asker = Asker::new(report);
    for fault in refusals::by_hand() {
        same_number(asker.report, fault.name, &fault.bytes, fault.number);
        for lengths in [EXACT, (0, 0), (1600, 4095), (1535, 5000)] {
            asker.bytes(&fault.bytes, lengths);
        }
    }
    let numbers: Vec<usize> = (1..=10).collect();
    asker.seen.refused(asker.report, &numbers, 4);
}

fn every_one(report: &mut Report, questions: Vec<Vec<u8>>, refused: &[usize]) {
    let mut asker = Asker::new(report);
    for bytes in questions {
        let lengths = asker.enough();
        asker.bytes(&bytes, lengths);
    }
    asker.seen.refused(asker.report, refused, 20);
}

fn every_head(report: &mut Report) {
    every_one(report, every_byte::heads(), &[0, 5]);
}

fn every_command(report: &mut Report) {
    every_one(report, every_byte::commands(), &[2, 3, 4, 9, 10]);
}

fn every_term(report: &mut Report) {
    every_one(report, every_byte::terms(), &[0, 8]);
}

fn lengths_of_buffers(report: &mut Report) {
    let mut asker = Asker::new(report);
    for worked in worked::all() {
        let mut bytes = worked::bytes(worked.bytes);
        for answer in [0, 1, 128, 1535, 1536, 1537, 4096] {
            for work in [0, 1, 512, 1536, 4095, 4096, 4097, 8192] {
                asker.bytes(&bytes, (answer, work));
            }
        }
        bytes.push(0x00);
        for lengths in [(1535, 4096), (1536, 4095), (0, 0), (1536, 4096)] {
            asker.bytes(&bytes, lengths);
        }
    }
}
