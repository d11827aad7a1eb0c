//! Runs families of cases, counts them and prints what went wrong. Cases that the library can fail are counted
//! by the last line; what the tests check of themselves is counted apart.

use crate::options::Options;
use crate::random::Random;
use std::panic::{catch_unwind, AssertUnwindSafe};
use std::time::Instant;

/// How many failures of one family are printed in full.
const PRINTED: usize = 5;

/// A family's name, and what runs it.
pub type Family = (&'static str, fn(&mut Report));

#[derive(Clone, Copy, Default)]
struct Count {
    passed: usize,
    failed: usize,
}

impl Count {
    fn add(&mut self, other: Count) {
        self.passed += other.passed;
        self.failed += other.failed;
    }
}

pub struct Report {
    pub options: Options,
    family: &'static str,
    /// Of the family that runs: cases of the library, and those apart.
    here: [Count; 2],
    /// Of all families before it.
    whole: [Count; 2],
}

const LIBRARY: usize = 0;
const APART: usize = 1;

impl Report {
    pub fn new(options: Options) -> Report {
        println!("seed {}", options.seed);
        Report {
            options,
            family: "",
            here: [Count::default(); 2],
            whole: [Count::default(); 2],
        }
    }

    /// Runs each family that is asked for. One that panics has failed.
    pub fn run(&mut self, families: &[Family]) {
        for &(name, family) in families {
            if !self.options.wants(name) {
                continue;
            }
            self.family = name;
            let began = Instant::now();
            if catch_unwind(AssertUnwindSafe(|| family(self))).is_err() {
                self.case(Err("panicked".to_string()));
            }
            self.sum_up(began.elapsed().as_secs_f64());
        }
    }

    fn sum_up(&mut self, seconds: f64) {
        let [library, apart] = self.here;
        let mut line = format!("{}:", self.family);
        if library.passed + library.failed > 0 {
            line += &format!(" {} passed, {} failed;", library.passed, library.failed);
        }
        if apart.passed + apart.failed > 0 {
            line += &format!(" apart {} passed, {} failed;", apart.passed, apart.failed);
        }
        println!("{line} {seconds:.1} s");
        for (whole, here) in self.whole.iter_mut().zip(self.here) {
            whole.add(here);
        }
        self.here = [Count::default(); 2];
    }

    /// Numbers for the family that runs.
    pub fn random(&self) -> Random {
        Random::named(self.options.seed, self.family)
    }

    /// How many rounds a random family has.
    pub fn rounds(&self, once: usize) -> usize {
        once * self.options.times
    }

    /// How many cases of the family that runs have failed.
    pub fn failures(&self) -> usize {
        self.here[LIBRARY].failed + self.here[APART].failed
    }

    fn count(&mut self, whose: usize, result: Result<(), String>) {
        match result {
            Ok(()) => self.here[whose].passed += 1,
            Err(fault) => {
                if self.failures() < PRINTED {
                    println!("FAILED {}: {fault}", self.family);
                }
                self.here[whose].failed += 1;
            }
        }
    }

    /// One case of the library: what is wrong with it, if anything is.
    pub fn case(&mut self, result: Result<(), String>) {
        self.count(LIBRARY, result);
    }

    /// One case of the library in which two things are to be the same.
    pub fn same<T: PartialEq + std::fmt::Debug>(&mut self, what: &str, given: T, expected: T) {
        self.case(same(what, given, expected));
    }

    /// Something that the tests check of themselves.
    pub fn apart(&mut self, result: Result<(), String>) {
        self.count(APART, result);
    }

    pub fn same_apart<T: PartialEq + std::fmt::Debug>(
        &mut self,
        what: &str,
        given: T,
        expected: T,
    ) {
        self.apart(same(what, given, expected));
    }

    /// Prints the last lines and says whether all passed, and whether there was anything to pass.
    pub fn finish(self) -> bool {
        let [library, apart] = self.whole;
        println!(
            "without the library: {} passed, {} failed",
            apart.passed, apart.failed
        );
        let failed = library.failed + apart.failed;
        println!("{} passed, {failed} failed", library.passed);
        failed == 0 && library.passed + apart.passed > 0
    }
}

fn same<T: PartialEq + std::fmt::Debug>(what: &str, given: T, expected: T) -> Result<(), String> {
    if given == expected {
        return Ok(());
    }
    Err(format!("{what}: {given:?}, expected {expected:?}"))
}
