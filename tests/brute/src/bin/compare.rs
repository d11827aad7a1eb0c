//! Compares the library with the brute-force solver, after the two routes of the solver with each other. The library
//! must be linked: set ZIMORGAL_LIB_DIR to the folder of libzimorgal.a.

use brute::options::Options;
use brute::report::Report;

fn main() {
    let mut report = Report::new(Options::of_process());
    if !brute::library::linked() {
        eprintln!("the library is not linked: set ZIMORGAL_LIB_DIR to the folder of libzimorgal.a");
        std::process::exit(2);
    }
    for families in brute::WITHOUT_IT.iter().chain(brute::WITH_THE_LIBRARY) {
        report.run(families);
    }
    if !report.finish() {
        std::process::exit(1);
    }
}
