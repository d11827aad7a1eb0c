//! Prints the lines of tests/brute/before.txt as the linked library gives them. The file was written with the library of the release
//! before permission policies.

use brute::before::{line, questions};

fn main() {
    for question in questions() {
        println!("{}", line(&question));
    }
}
