//! Compares the two routes with each other. The library is not needed.

use brute::options::Options;
use brute::report::Report;

fn main() {
    let mut report = Report::new(Options::of_process());
    for families in brute::WITHOUT_IT {
        report.run(families);
    }
    if !report.finish() {
        std::process::exit(1);
    }
}
