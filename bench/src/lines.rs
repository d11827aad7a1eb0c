//! The lines of the table: families of questions, which are asked, of rows, which are judged, of tree texts, from which constants are read, and of
//! constants, which are joined in pairs, or measured.

use crate::asking::{median_round, Buffers};
use crate::families::{self, Family};
use crate::{by_leaves, judged, numbers, plain_reader, route_b, texts};
use brute::library;
use std::time::Duration;

/// How long the rounds of what the library is compared with go on.
const LONG_ENOUGH: Duration = Duration::from_millis(150);

/// The call that a line measures.
#[derive(Clone, Copy)]
pub enum Call {
    Ask,
    Judge,
    Constant,
    Join,
    Height,
}

impl Call {
    /// Whether the library that is linked has it.
    fn is_there(self) -> bool {
        match self {
            Call::Ask | Call::Join | Call::Height => true,
            Call::Judge => library::judges(),
            Call::Constant => library::reads_text(),
        }
    }
}

pub struct Line {
    pub call: Call,
    pub family: Family,
}

impl Line {
    /// Whether there is something to measure: the call, and inputs.
    pub fn is_there(&self) -> bool {
        self.call.is_there() && !self.family.inputs.is_empty()
    }

    /// The library must say what it is compared with says: route B, the plain reader, or a loop over the leaves. Of judging it must say what tests/brute
    /// says.
    pub fn must_agree(&self) {
        match self.call {
            Call::Ask => route_b::must_agree(&self.family),
            Call::Judge => judged::must_agree(&self.family),
            Call::Constant => plain_reader::must_agree(&self.family),
            Call::Join => by_leaves::joins_must_agree(&self.family),
            Call::Height => by_leaves::heights_must_agree(&self.family),
        }
    }

    /// The library's nanoseconds per input, from rounds for so long.
    pub fn time(&self, long: Duration) -> f64 {
        let family = &self.family;
        match self.call {
            Call::Ask | Call::Judge | Call::Constant => {
                let mut buffers = Buffers::new();
                median_round(family, long, |bytes| buffers.call(self.call, bytes))
            }
            Call::Join => numbers::time(family, long, |[a, b]| library::join(a, b)),
            Call::Height => numbers::time(family, long, |[a]| u64::from(library::height(a))),
        }
    }

    /// The nanoseconds per input of what it is compared with, unless that takes too long.
    pub fn time_compared(&self) -> Option<f64> {
        let (family, long) = (&self.family, LONG_ENOUGH);
        match self.call {
            Call::Ask => route_b::time(family, long),
            Call::Judge => Some(judged::time_asking(family, long)),
            Call::Constant => Some(plain_reader::time(family, long)),
            Call::Join => Some(numbers::time(family, long, |[a, b]| by_leaves::join(a, b))),
            Call::Height => Some(numbers::time(family, long, |[a]| {
                u64::from(by_leaves::height(a))
            })),
        }
    }
}

pub fn all() -> Vec<Line> {
    let line = |call| move |family| Line { call, family };
    let asked = families::all().into_iter().map(line(Call::Ask));
    let judged = judged::all().into_iter().map(line(Call::Judge));
    let read = texts::all().into_iter().map(line(Call::Constant));
    let joined = numbers::pairs().into_iter().map(line(Call::Join));
    let measured = numbers::singles().into_iter().map(line(Call::Height));
    asked
        .chain(judged)
        .chain(read)
        .chain(joined)
        .chain(measured)
        .collect()
}
