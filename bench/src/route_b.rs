//! Route B of the brute-force solver: it must say what the library says, and it is timed.

use crate::asking::{median_round, Buffers};
use crate::families::Family;
use crate::lines::Call;
use brute::fixed::rows;
use brute::question::read;
use brute::single::decide;
use std::hint::black_box;
use std::time::{Duration, Instant};

/// Route B is left out where a family's first question takes longer; the table says so.
pub const TOO_LONG: Duration = Duration::from_secs(5);

/// The verdict (1 yes, 2 no), the height, the reason and the disequation number.
type Said = [u8; 4];

fn library_says(bytes: &[u8]) -> Option<Said> {
    let fields = Buffers::new().call(Call::Ask, bytes).to_le_bytes();
    (fields[0] > 0).then_some([fields[0], fields[4], fields[5], fields[6]])
}

fn route_b_says(bytes: &[u8]) -> Option<Said> {
    let outcome = decide(&read(bytes).ok()?);
    let verdict = if outcome.yes { 1 } else { 2 };
    let (height, number) = (outcome.height as u8, outcome.disequation as u8);
    Some([verdict, height, outcome.reason, number])
}

fn ask_route_b(bytes: &[u8]) {
    if let Ok(question) = read(black_box(bytes)) {
        let outcome = decide(&question);
        black_box(rows(&question, &outcome));
    }
}

/// Both solvers must say the same, of as many questions as go into the time that is too long for one.
pub fn must_agree(family: &Family) {
    let began = Instant::now();
    for question in &family.inputs {
        assert_eq!(
            library_says(question),
            route_b_says(question),
            "{}",
            family.name
        );
        if began.elapsed() > TOO_LONG {
            break;
        }
    }
}

/// Route B's nanoseconds per question, unless it takes too long.
pub fn time(family: &Family, long: Duration) -> Option<f64> {
    let began = Instant::now();
    ask_route_b(family.inputs.first()?);
    (began.elapsed() <= TOO_LONG).then(|| median_round(family, long, ask_route_b))
}
