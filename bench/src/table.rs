//! The tables.

use crate::habit;
use crate::instructions;
use crate::lines::{self, Line};
use crate::route_b::TOO_LONG;
use crate::turns::{by_turns, Program};
use std::path::Path;

const LEGEND: &str = "ns and instructions: per question, judgement, tree text, join or height
compared: route B of tests/brute, for judging the library's asking of the same questions, a plain reader of tree text, a loop over the 32 leaves";

/// An archive that is measured.
pub struct Archive {
    pub program: Program,
    /// The instructions of each family, or why they are not counted.
    pub counts: Result<Vec<u64>, String>,
}

impl Archive {
    fn new(program: &Path) -> Archive {
        Archive {
            counts: instructions::count(program),
            program: Program::start(program),
        }
    }

    /// The instructions per input.
    fn instructions(&self, number: usize, line: &Line) -> String {
        match &self.counts {
            Ok(counts) => few_digits(counts[number] as f64 / line.family.inputs.len() as f64),
            Err(_) => "-".to_string(),
        }
    }
}

/// Prints the table of the library that is linked here, and of another program's beside it; then that of a list of constants, of the library alone.
pub fn print(other: Option<&Path>) {
    let own = std::env::current_exe().expect("the path of this program");
    let mut archives = vec![Archive::new(&own)];
    archives.extend(other.map(Archive::new));
    print_line("family", "inputs", &head(other.is_some()));
    let mut differs = false;
    let lines = lines::all();
    let there = |(_, line): &(usize, &Line)| line.is_there();
    for (number, line) in lines.iter().enumerate().filter(there) {
        line.must_agree();
        let times = times(number, &mut archives);
        differs |= times.contains(&None);
        let cells = cells(number, line, &archives, &times);
        let inputs = line.family.inputs.len();
        print_line(&line.family.name, &inputs.to_string(), &cells);
    }
    println!("{LEGEND}");
    if differs {
        println!("differs: the other archive gives another result, shows other rows to be judged or has no such call, and is not measured");
    }
    habit::print(&lines, &mut archives[0]);
    if let Some(why) = archives
        .iter()
        .find_map(|archive| archive.counts.as_ref().err())
    {
        println!("-: instructions are not counted: {why}");
    }
}

pub fn print_line(family: &str, inputs: &str, cells: &[String]) {
    print!("{family:<60} {inputs:>9}");
    for cell in cells {
        print!(" {cell:>14}");
    }
    println!();
}

fn head(with_other: bool) -> Vec<String> {
    let other: &[&str] = match with_other {
        true => &["other ns", "instructions"],
        false => &[],
    };
    let cells = [
        &["library ns", "instructions"],
        other,
        &["compared ns", "ratio"],
    ];
    cells.concat().into_iter().map(String::from).collect()
}

/// The nanoseconds per input of each archive; none where it gives other results than the first.
fn times(number: usize, archives: &mut [Archive]) -> Vec<Option<f64>> {
    let programs = archives.iter_mut().map(|archive| &mut archive.program);
    let results: Vec<String> = programs.map(|program| program.results(number)).collect();
    let mut alike = Vec::new();
    for (archive, result) in archives.iter_mut().zip(&results) {
        if *result == results[0] {
            alike.push(&mut archive.program);
        }
    }
    let mut times = by_turns(&mut alike, number).into_iter();
    let time = |result| {
        if result == &results[0] {
            times.next()
        } else {
            None
        }
    };
    results.iter().map(time).collect()
}

fn cells(number: usize, line: &Line, archives: &[Archive], times: &[Option<f64>]) -> Vec<String> {
    let mut cells = Vec::new();
    for (archive, time) in archives.iter().zip(times) {
        cells.extend(match time {
            Some(ns) => [few_digits(*ns), archive.instructions(number, line)],
            None => ["differs".to_string(), "differs".to_string()],
        });
    }
    let by_library = times[0].expect("the first is alike itself");
    cells.extend(compared_cells(line, by_library));
    cells
}

/// With a digit behind the point below 100, and two below 10.
pub fn few_digits(number: f64) -> String {
    let behind = match number {
        n if n < 10.0 => 2,
        n if n < 100.0 => 1,
        _ => 0,
    };
    format!("{number:.behind$}")
}

/// The nanoseconds of what the library is compared with, and how many times the library's they are.
fn compared_cells(line: &Line, by_library: f64) -> [String; 2] {
    match line.time_compared() {
        Some(ns) => [few_digits(ns), format!("{:.1}", ns / by_library)],
        None => {
            let least = TOO_LONG.as_nanos() as f64;
            let ratio = least / by_library;
            [format!("over {least:.0}"), format!("over {ratio:.0}")]
        }
    }
}
