//! Faults of the byte format, worked by hand from SPEC 7: each refusal, its place, and the order at
//! one command; and questions beside them that have none, with their answers.

use crate::due::packed_refusal;
use crate::limits;
use crate::question::Refusal;
use crate::worked;

/// Bytes, the refusal that is due, if any, and the number that asking is to give.
pub struct Fault {
    pub name: &'static str,
    pub bytes: Vec<u8>,
    pub refusal: Option<Refusal>,
    pub number: u64,
}

impl Fault {
    pub fn refused(name: &'static str, bytes: Vec<u8>, refusal: Refusal) -> Fault {
        Fault {
            name,
            bytes,
            refusal: Some(refusal),
            number: packed_refusal(refusal),
        }
    }

    pub fn accepted(name: &'static str, bytes: Vec<u8>, number: u64) -> Fault {
        Fault {
            name,
            bytes,
            refusal: None,
            number,
        }
    }
}

/// The numbers of accepted questions: the height is byte 4, the reason byte 5.
pub const YES: u64 = 0x01;
pub const YES_AT_HEIGHT_5: u64 = 0x05_0000_0001;
pub const YES_REASON_1: u64 = 0x0100_0000_0001;
pub const NO: u64 = 0x02;
pub const NO_REASON_3: u64 = 0x0300_0000_0002;

/// Name, bytes, refusal number and place.
type Line = (&'static str, &'static str, u8, usize);

const SHORT: &[Line] = &[
    ("1: no byte", "", 1, 0),
    ("1: the end first", "00", 1, 0),
    ("1: a constant first", "03 00 00 00 00", 1, 0),
    ("1: edition two's head", "02 00 00 00 00", 1, 0),
    ("1 before 3: an unknown byte first", "FF", 1, 0),
    ("2: a head cut short at 1", "01", 2, 0),
    ("2: a head cut short at 2", "01 00", 2, 0),
    ("2: a head cut short at 3", "01 00 00", 2, 0),
    ("2 before 5: a head cut short, kind 2", "01 02 00", 2, 0),
    ("2: no command after the head", "01 00 00 00", 2, 4),
    ("2: no command after a constant", "01 00 00 00 | E", 2, 9),
    (
        "2: no command after a join",
        "01 00 01 00 | 10 00 00 00",
        2,
        8,
    ),
    (
        "2: no command after an equality",
        "01 00 01 00 | 12 00 00",
        2,
        7,
    ),
    ("2: a constant cut short", "01 00 00 00 | 03 00 00 00", 2, 4),
    ("2: a bare constant", "01 00 00 00 | 03", 2, 4),
    ("2: a join cut short", "01 00 01 00 | 10 00 00", 2, 4),
    ("2: an equality cut short", "01 00 01 00 | 12 00", 2, 4),
    (
        "2 before 4: a second head cut short",
        "01 00 00 00 | 01 00 00",
        2,
        4,
    ),
    (
        "2 before 4: a constant after a clause, cut short",
        "01 00 01 00 | 12 00 00 | 03 00 00 00",
        2,
        7,
    ),
    (
        "2 before 9: a second-system clause cut short",
        "01 00 01 00 | 22 00",
        2,
        4,
    ),
    (
        "2 before 8: a bad term, cut short",
        "01 00 01 00 | 12 FF",
        2,
        4,
    ),
    ("3: command 02", "01 00 00 00 | 02", 3, 4),
    ("3: command 04", "01 00 00 00 | 04 00 00 00 00", 3, 4),
    ("3: command 0F", "01 00 00 00 | 0F 00", 3, 4),
    ("3: command 14", "01 00 00 00 | 14 00 00 00", 3, 4),
    ("3: command 24", "01 01 00 00 | 24 00 00 00", 3, 4),
    (
        "3: command FF, after a clause",
        "01 00 01 00 | 12 00 00 | FF",
        3,
        7,
    ),
    ("4: a second head", "01 00 00 00 | 01 00 00 00 | 00", 4, 4),
    (
        "4 before 5: a second head, kind 9",
        "01 00 00 00 | 01 09 FF FF | 00",
        4,
        4,
    ),
    (
        "4: a second head after a clause",
        "01 00 01 00 | 12 00 00 | 01 00 00 00 | 00",
        4,
        7,
    ),
    (
        "4: a constant after a clause",
        "01 00 01 00 | E | 12 00 20 | F | 00",
        4,
        12,
    ),
    (
        "4: a constant after a clause of the second",
        "01 01 01 00 | E | 22 00 20 | F | 00",
        4,
        12,
    ),
    ("5: kind 2", "01 02 00 00 | 00", 5, 0),
    ("5: kind FF", "01 FF 00 00 | 00", 5, 0),
    ("5: 13 free variables", "01 00 0D 00 | 00", 5, 0),
    ("5: 12 free and 1 own", "01 01 0C 01 | 00", 5, 0),
    ("5: 6 and 7", "01 01 06 07 | 00", 5, 0),
    ("5: 13 own", "01 01 00 0D | 00", 5, 0),
    ("5: a sum that passes a byte", "01 01 FF 01 | 00", 5, 0),
    (
        "5: a sum that passes a byte, to 12",
        "01 01 86 86 | 00",
        5,
        0,
    ),
    ("5: an own variable with kind 0", "01 00 01 01 | 00", 5, 0),
    ("5 before later faults", "01 02 00 00 | FF", 5, 0),
    (
        "8: a variable above those of the head",
        "01 00 01 00 | 12 00 01 | 00",
        8,
        4,
    ),
    ("8: no variable at all", "01 00 00 00 | 12 00 00 | 00", 8, 4),
    ("8: variable 0C of 12", "01 00 0C 00 | 12 00 0C | 00", 8, 4),
    ("8: term 1F", "01 00 01 00 | E | 12 00 1F | 00", 8, 9),
    (
        "8: a constant above those defined",
        "01 00 01 00 | E | 12 00 21 | 00",
        8,
        9,
    ),
    ("8: no constant at all", "01 00 01 00 | 12 20 00 | 00", 8, 4),
    ("8: term 40", "01 00 01 00 | 12 40 00 | 00", 8, 4),
    ("8: term FF", "01 00 01 00 | 10 00 00 FF | 00", 8, 4),
    (
        "8: an own variable in the first system",
        "01 01 01 01 | 12 00 01 | 00",
        8,
        4,
    ),
    (
        "8: in the second clause",
        "01 00 01 00 | 12 00 00 | 11 00 01 00 | 00",
        8,
        7,
    ),
    ("9: a join", "01 00 01 00 | 20 00 00 00 | 00", 9, 4),
    ("9: a negated join", "01 00 01 00 | 21 00 00 00 | 00", 9, 4),
    (
        "9: an equality",
        "01 00 01 00 | 12 00 00 | 22 00 00 | 00",
        9,
        7,
    ),
    ("9: a negated equality", "01 00 01 00 | 23 00 00 | 00", 9, 4),
    ("9 before 8", "01 00 01 00 | 22 FF FF | 00", 9, 4),
    ("10: a byte after the end", "01 00 00 00 | 00 00", 10, 5),
    (
        "10: a head after the end",
        "01 00 00 00 | 00 | 01 00 00 00 00",
        10,
        5,
    ),
    (
        "10: an unknown byte after the end",
        "01 00 01 00 | 12 00 00 | 00 | FF FF",
        10,
        8,
    ),
    (
        "the first fault decides",
        "01 00 01 00 | 12 00 FF | FF",
        8,
        4,
    ),
    (
        "the first fault decides, from the left",
        "01 00 01 00 | 22 00 00 | 12 FF FF | FF",
        9,
        4,
    ),
];

/// Name, bytes, and the number that is due.
type Accepted = (&'static str, &'static str, u64);

const ACCEPTED: &[Accepted] = &[
    ("12 free variables", "01 00 0C 00 | 00", YES),
    ("12 own variables", "01 01 00 0C | 00", YES),
    ("7 and 5", "01 01 07 05 | 00", YES),
    ("variable 0B of 12", "01 00 0C 00 | 12 00 0B | 00", YES),
    (
        "an own variable in the second system",
        "01 01 01 01 | 22 00 01 | 00",
        YES,
    ),
    (
        "the two systems alternate",
        "01 01 01 01 | 22 00 01 | 12 00 00 | 22 01 00 | 13 00 00 | 00",
        YES_REASON_1,
    ),
];

/// Faults at the commands of permission policies.
const POLICIES: &[Line] = &[
    ("2: a bare 30", "01 00 01 00 | 30", 2, 4),
    ("2: a bare 31", "01 00 01 00 | 31", 2, 4),
    ("2: a bare 32", "01 00 01 00 | 32", 2, 4),
    ("2: 32 cut short", "01 00 01 00 | 32 00", 2, 4),
    ("2: a bare 38", "01 01 01 00 | 38", 2, 4),
    ("2: a bare 39", "01 01 01 00 | 39", 2, 4),
    ("2: a bare 3A", "01 01 01 00 | 3A", 2, 4),
    ("2: 3A cut short", "01 01 01 00 | 3A 00", 2, 4),
    ("2: no command after 30", "01 00 01 00 | 30 00", 2, 6),
    ("2: no command after 31", "01 00 01 00 | 31 00", 2, 6),
    ("2: no command after 32", "01 00 01 00 | 32 00 00", 2, 7),
    ("2 before 9: 38 cut short", "01 00 01 00 | 38", 2, 4),
    ("2 before 8: 32 cut short", "01 00 01 00 | 32 FF", 2, 4),
    (
        "4: a constant after 30",
        "01 00 01 00 | E | 30 00 | F | 00",
        4,
        11,
    ),
    (
        "4: a constant after 39",
        "01 01 01 00 | E | 39 00 | F | 00",
        4,
        11,
    ),
    (
        "8: 30 of a variable above those of the head",
        "01 00 01 00 | 30 01 | 00",
        8,
        4,
    ),
    (
        "8: 31 of a constant above those defined",
        "01 00 01 00 | E | 31 21 | 00",
        8,
        9,
    ),
    (
        "8: 32 of no term first",
        "01 00 01 00 | 32 FF 00 | 00",
        8,
        4,
    ),
    (
        "8: 32 of no term second",
        "01 00 01 00 | 32 00 1F | 00",
        8,
        4,
    ),
    ("8: 30 of an own variable", "01 01 01 01 | 30 01 | 00", 8, 4),
    ("8: 31 of an own variable", "01 01 01 01 | 31 01 | 00", 8, 4),
    (
        "8: 32 with an own variable",
        "01 01 01 01 | 32 00 01 | 00",
        8,
        4,
    ),
    (
        "8: 38 above the own variables",
        "01 01 01 01 | 38 02 | 00",
        8,
        4,
    ),
    ("8: 39 of no constant", "01 01 01 01 | 39 20 | 00", 8, 4),
    ("8: 3A of no term", "01 01 01 01 | 3A 01 0C | 00", 8, 4),
    ("9: 38", "01 00 01 00 | 38 00 | 00", 9, 4),
    ("9: 39", "01 00 01 00 | 39 00 | 00", 9, 4),
    ("9: 3A", "01 00 01 00 | 3A 00 00 | 00", 9, 4),
    ("9 before 8: 3A", "01 00 01 00 | 3A FF FF | 00", 9, 4),
];

const POLICIES_ACCEPTED: &[Accepted] = &[
    (
        "own variables in 38, 39 and 3A",
        "01 01 01 02 | 38 01 | 39 02 | 3A 02 02 | 00",
        NO_REASON_3,
    ),
    (
        "the operand 30 of 30",
        "01 00 01 00 | E E E E E E E E E E E E E E E E F | 30 30 | 00",
        YES,
    ),
];

/// The bytes beside the commands of permission policies, which are unknown.
fn beside_policies() -> impl Iterator<Item = Fault> {
    let refusal = Refusal {
        number: 3,
        place: 4,
    };
    let bytes = (0x33..=0x37).chain(0x3B..=0x3F);
    bytes.map(move |byte| {
        let question = vec![0x01, 0x01, 0x01, 0x00, byte, 0x00, 0x00, 0x00];
        Fault::refused("3: a byte beside 30 to 32 and 38 to 3A", question, refusal)
    })
}

fn of_lines(lines: &'static [Line], accepted: &'static [Accepted]) -> impl Iterator<Item = Fault> {
    let refused = lines.iter().map(|&(name, text, number, place)| {
        Fault::refused(name, worked::bytes(text), Refusal { number, place })
    });
    let accepted = accepted
        .iter()
        .map(|&(name, text, number)| Fault::accepted(name, worked::bytes(text), number));
    refused.chain(accepted)
}

/// The short ones without permission policies.
pub fn older() -> impl Iterator<Item = Fault> {
    of_lines(SHORT, ACCEPTED)
}

/// All faults worked by hand, and some questions beside them that have none.
pub fn by_hand() -> Vec<Fault> {
    let mut faults: Vec<Fault> = older().collect();
    faults.extend(of_lines(POLICIES, POLICIES_ACCEPTED));
    faults.extend(beside_policies());
    faults.extend(limits::at_the_edge());
    faults.extend(limits::one_past());
    faults.extend(limits::after_the_longest());
    faults
}
