//! What the documents say: the calls that docs/FORMAT.md has in its tables are made, and tests/README.md has a row for
//! every family and for nothing else.

use crate::library;
use crate::report::{Family, Report};

pub const FAMILIES: &[Family] = &[
    ("join and height in FORMAT.md", join_and_height),
    ("the tables of tests/README.md", families_named),
];

/// A file of this repository, from its top folder.
pub fn file(path: &str) -> String {
    let top = concat!(env!("CARGO_MANIFEST_DIR"), "/../..");
    std::fs::read_to_string(format!("{top}/{path}")).unwrap_or_else(|e| panic!("{path}: {e}"))
}

/// The rows of the table with these heads, cell by cell.
pub fn table(markdown: &str, heads: &[&str]) -> Vec<Vec<String>> {
    let cells = |line: &str| -> Vec<String> {
        let inside = line.trim().trim_start_matches('|').trim_end_matches('|');
        inside
            .split('|')
            .map(|cell| cell.trim().to_string())
            .collect()
    };
    markdown
        .lines()
        .skip_while(|line| cells(line) != heads)
        .skip(2)
        .take_while(|line| line.starts_with('|'))
        .map(cells)
        .collect()
}

fn number(cell: &str) -> u64 {
    let digits = cell.trim_matches('`');
    match digits.strip_prefix("0x") {
        Some(hexadecimal) => u64::from_str_radix(hexadecimal, 16),
        None => digits.parse(),
    }
    .unwrap_or_else(|error| panic!("{cell}: {error}"))
}

fn join_and_height(report: &mut Report) {
    let format = file("docs/FORMAT.md");
    let joins = table(&format, &["a", "b", "zimorgal_join(a, b)"]);
    for row in &joins {
        let [a, b, due] = [0, 1, 2].map(|at| number(&row[at]));
        let given = library::join(a as u32, b as u32);
        report.same("join", (a, b, given), (a, b, due));
    }
    let heights = table(&format, &["a", "zimorgal_height(a)"]);
    for row in &heights {
        let [a, due] = [0, 1].map(|at| number(&row[at]));
        let given = u64::from(library::height(a as u32));
        report.same("height", (a, given), (a, due));
    }
    let counts = (joins.len(), heights.len());
    report.same_apart("joins and heights in the tables", counts, (10, 6));
}

/// The table of tests/README.md with this head names these families, in this order.
pub fn named(report: &mut Report, head: &str, families: &[&[Family]]) {
    let rows = table(&file("tests/README.md"), &[head, "would catch"]);
    let given: Vec<&str> = rows.iter().map(|row| row[0].as_str()).collect();
    let names = families.concat().into_iter().map(|(name, _)| name);
    report.same_apart(head, given, names.collect());
}

fn families_named(report: &mut Report) {
    let without = crate::WITHOUT_IT;
    named(report, "tests/brute, the solver alone", without);
    named(report, "tests/brute", crate::WITH_THE_LIBRARY);
}
