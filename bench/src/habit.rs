//! The second table: a list of constants in front of every question, 32 of them, beside the same questions with the two alone that clauses name.

use crate::asking::Buffers;
use crate::families::habit::{ALONE, LIST, MORE};
use crate::judged::parts;
use crate::lines::{Call, Line};
use crate::table::{few_digits, print_line, Archive};
use crate::turns::lines_by_turns;

const HEAD: [&str; 7] = [
    "list ns",
    "alone ns",
    "list / alone",
    "list instr.",
    "alone instr.",
    "list / alone",
    "a constant",
];
const LEGEND: &str = "list: 32 constants, of which clauses name two; alone: the same questions with the two alone; per question or judgement
a constant: how many instructions each of the 30 constants takes that no clause names";

/// Prints the table of one archive.
pub fn print(lines: &[Line], archive: &mut Archive) {
    println!();
    print_line("a list of constants", "inputs", &HEAD.map(String::from));
    for [list, alone] in pairs(lines) {
        must_be_alike(&lines[list], &lines[alone]);
        let mut cells = times(archive, [list, alone]).to_vec();
        cells.extend(instructions(archive, lines, [list, alone]));
        let name = lines[list].family.name.replace(LIST, "");
        let inputs = lines[list].family.inputs.len();
        print_line(&name, &inputs.to_string(), &cells);
    }
    println!("{LEGEND}");
}

/// The numbers of a line with the list, and of the line of the same with the two alone.
fn pairs(lines: &[Line]) -> Vec<[usize; 2]> {
    let alone_of = |list: &Line| {
        let name = list.family.name.replace(LIST, ALONE);
        let number = lines.iter().position(|line| line.family.name == name);
        number.expect("the same with the two alone")
    };
    let with_list = |line: &Line| line.family.name.contains(LIST) && line.is_there();
    let lists = lines.iter().enumerate().filter(|(_, line)| with_list(line));
    let pairs: Vec<[usize; 2]> = lists.map(|(list, line)| [list, alone_of(line)]).collect();
    assert!(!pairs.is_empty(), "questions with a list of constants");
    pairs
}

/// The library must give the same for both, and the rows that are judged are the same.
fn must_be_alike(list: &Line, alone: &Line) {
    assert_eq!(list.family.inputs.len(), alone.family.inputs.len());
    for (a, b) in list.family.inputs.iter().zip(&alone.family.inputs) {
        let given = [(list, a), (alone, b)].map(|(line, input)| {
            let rows = match line.call {
                Call::Judge => parts(input).0,
                _ => &[],
            };
            (Buffers::new().call(line.call, input), rows)
        });
        assert_eq!(given[0], given[1], "{}", list.family.name);
    }
}

/// Both times, and the median of what the one is beside the other, turn by turn.
fn times(archive: &mut Archive, numbers: [usize; 2]) -> [String; 3] {
    let ([list, alone], ratio) = lines_by_turns(&mut archive.program, numbers);
    [few_digits(list), few_digits(alone), format!("{ratio:.3}")]
}

fn instructions(archive: &Archive, lines: &[Line], numbers: [usize; 2]) -> [String; 4] {
    let Ok(counts) = &archive.counts else {
        return [(); 4].map(|()| "-".to_string());
    };
    let [list, alone] =
        numbers.map(|number| counts[number] as f64 / lines[number].family.inputs.len() as f64);
    [
        few_digits(list),
        few_digits(alone),
        format!("{:.3}", list / alone),
        few_digits((list - alone) / MORE as f64),
    ]
}

#[cfg(test)]
mod tests {
    use super::pairs;
    use crate::lines;

    /// Eight families are asked; of these the two that are entailed show nothing that could be judged.
    #[test]
    fn each_list_has_the_same_with_the_two_alone() {
        assert_eq!(pairs(&lines::all()).len(), 8 + 6);
    }
}
