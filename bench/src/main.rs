//! Prints a table: nanoseconds and instructions per question, judgement, tree text, join or height for the library, and nanoseconds for route B,
//! asking, a plain reader or a loop over the leaves, family by family. Then a second one, of questions behind a list of constants beside the same
//! without it. The library must be linked: set ZIMORGAL_LIB_DIR to the folder of libzimorgal.a. A second archive is measured beside it through this
//! same program, built with that one.

mod asking;
mod broken;
mod by_leaves;
mod families;
mod habit;
mod instructions;
mod judged;
mod lines;
mod numbers;
mod plain_reader;
mod route_b;
mod table;
mod texts;
mod turns;

use brute::library;
use std::path::Path;
use std::process::exit;

const USAGE: &str = "usage: bench [--with PROGRAM]
PROGRAM is this program, built with another libzimorgal.a";

fn main() {
    if !library::linked() {
        eprintln!("the library is not linked: set ZIMORGAL_LIB_DIR to the folder of libzimorgal.a");
        exit(2);
    }
    let arguments: Vec<String> = std::env::args().skip(1).collect();
    let arguments: Vec<&str> = arguments.iter().map(String::as_str).collect();
    match arguments[..] {
        [] => table::print(None),
        ["--with", program] => table::print(Some(Path::new(program))),
        [turns::SERVE] => turns::serve(),
        [instructions::ASK_ONCE] => instructions::ask_once(),
        _ => {
            eprintln!("{USAGE}");
            exit(2);
        }
    }
}
