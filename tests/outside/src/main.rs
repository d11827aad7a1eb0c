//! Tries the library from outside, through its C calls alone, as a caller who is careless or unlucky would:
//! null pointers, every length, every alignment, memory that ends at a page, memory that was used before, many
//! threads, and bytes that grew by mutation. What is due comes from the brute-force solver (tests/brute).

mod aligned;
mod asking;
mod calls;
mod commands;
mod constants;
mod edges;
mod four_gigabytes;
mod handed;
mod handing;
mod long;
mod mapping;
mod memory;
mod mutation;
mod pages;
mod reused;
mod samples;
mod shrink;
mod texts;
mod threads;

use brute::options::Options;
use brute::report::{Family, Report};

/// A new family is put into one of these lists, and into the table of tests/README.md.
const FAMILIES: &[&[Family]] = &[
    edges::FAMILIES,
    long::FAMILIES,
    four_gigabytes::FAMILIES,
    aligned::FAMILIES,
    pages::FAMILIES,
    reused::FAMILIES,
    constants::FAMILIES,
    threads::FAMILIES,
    handing::FAMILIES,
    mutation::FAMILIES,
    &[("the table of tests/README.md", families_named)],
];

fn families_named(report: &mut Report) {
    brute::documents::named(report, "tests/outside", FAMILIES);
}

fn main() {
    let mut report = Report::new(Options::of_process());
    calls::tell_of_crashes();
    for families in FAMILIES {
        report.run(families);
    }
    if !report.finish() {
        std::process::exit(1);
    }
}
