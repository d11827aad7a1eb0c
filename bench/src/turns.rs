//! Programs, each linked with one archive, that go through the inputs of a line by turns.

use crate::asking::Buffers;
use crate::lines::{self, Line};
use std::hash::{DefaultHasher, Hash, Hasher};
use std::io::{stdin, BufRead, BufReader, Write};
use std::iter::once;
use std::path::Path;
use std::process::{Child, ChildStdin, ChildStdout, Command, Stdio};
use std::time::Duration;

/// The argument with which this program serves.
pub const SERVE: &str = "serve";
const TURNS: usize = 5;
/// How many turns two lines take that are set beside each other.
const LINE_TURNS: usize = 15;
/// How long the rounds of one turn go on.
const TURN: Duration = Duration::from_millis(30);

/// What is asked for of a line.
const RESULTS: &str = "results";
const TIME: &str = "time";

/// The input names what is asked for and the number of a line of the table; the output answers it. Both go by lines too.
pub fn serve() {
    let lines = lines::all();
    for input in stdin().lock().lines() {
        let input = input.expect("a line");
        let (wanted, number) = input.split_once(' ').expect("two words");
        let line = &lines[number.parse::<usize>().expect("a number")];
        match wanted {
            RESULTS => println!("{}", results(line)),
            TIME => println!("{}", line.time(TURN)),
            _ => panic!("{input}"),
        }
    }
}

/// A number that tells the inputs from others, and what the library gives for each, in hexadecimal digits; nothing where there is nothing to measure.
fn results(line: &Line) -> String {
    if !line.is_there() {
        return String::new();
    }
    let mut hash = DefaultHasher::new();
    line.family.inputs.hash(&mut hash);
    let mut buffers = Buffers::new();
    let inputs = line.family.inputs.iter();
    let results = inputs.map(|bytes| buffers.call(line.call, bytes));
    let numbers = once(hash.finish()).chain(results);
    let digits: Vec<String> = numbers.map(|number| format!("{number:016X}")).collect();
    digits.concat()
}

/// A program that serves. It ends when its input ends.
pub struct Program {
    child: Child,
    input: Option<ChildStdin>,
    output: BufReader<ChildStdout>,
}

impl Program {
    pub fn start(path: &Path) -> Program {
        let mut child = Command::new(path)
            .arg(SERVE)
            .stdin(Stdio::piped())
            .stdout(Stdio::piped())
            .spawn()
            .unwrap_or_else(|error| panic!("{}: {error}", path.display()));
        let input = child.stdin.take();
        let output = BufReader::new(child.stdout.take().expect("its output"));
        Program {
            child,
            input,
            output,
        }
    }

    fn answer(&mut self, wanted: &str, number: usize) -> String {
        let input = self.input.as_mut().expect("its input");
        writeln!(input, "{wanted} {number}").expect("the program reads");
        let mut line = String::new();
        self.output
            .read_line(&mut line)
            .expect("the program answers");
        assert!(line.ends_with('\n'), "a program ended early");
        line.trim_end().to_string()
    }

    /// What the library that is linked there gives for each input of a line.
    pub fn results(&mut self, number: usize) -> String {
        self.answer(RESULTS, number)
    }

    fn time(&mut self, number: usize) -> f64 {
        self.answer(TIME, number).parse().expect("a time")
    }
}

impl Drop for Program {
    fn drop(&mut self) {
        drop(self.input.take());
        let _ = self.child.wait();
    }
}

/// The nanoseconds per input of each program's median turn. The programs take turns.
pub fn by_turns(programs: &mut [&mut Program], number: usize) -> Vec<f64> {
    let mut times = vec![Vec::new(); programs.len()];
    for _ in 0..TURNS {
        for (program, times) in programs.iter_mut().zip(&mut times) {
            times.push(program.time(number));
        }
    }
    times.into_iter().map(median).collect()
}

/// The nanoseconds per input of two lines by one program, their median turns, and the median of what the first is beside the second. The lines
/// take turns, so that both have their share of what else the machine does.
pub fn lines_by_turns(program: &mut Program, numbers: [usize; 2]) -> ([f64; 2], f64) {
    let turns: Vec<[f64; 2]> = (0..LINE_TURNS)
        .map(|_| numbers.map(|number| program.time(number)))
        .collect();
    let of_line = |line: usize| median(turns.iter().map(|turn| turn[line]).collect());
    let ratios = turns.iter().map(|[one, other]| one / other);
    ([of_line(0), of_line(1)], median(ratios.collect()))
}

fn median(mut times: Vec<f64>) -> f64 {
    times.sort_by(f64::total_cmp);
    times[times.len() / 2]
}
