//! What a run is told by its arguments: pairs of a word and what it is.

pub const USAGE: &str =
    "arguments: seed NUMBER, times NUMBER, seconds NUMBER, only PART, without PART (of a family's name)";

#[derive(Clone, Debug, PartialEq, Eq)]
pub struct Options {
    /// Every random choice depends on it and on the family's name alone.
    pub seed: u64,
    /// Random families have so many times their rounds.
    pub times: usize,
    /// How long mutation goes on (tests/outside); without it, a fixed number of rounds.
    pub seconds: Option<u64>,
    /// Only families with this in their name are run.
    pub only: Option<String>,
    /// Families with this in their name are not run.
    pub without: Option<String>,
}

impl Default for Options {
    fn default() -> Options {
        Options {
            seed: 1,
            times: 1,
            seconds: None,
            only: None,
            without: None,
        }
    }
}

impl Options {
    pub fn read(mut words: impl Iterator<Item = String>) -> Option<Options> {
        let mut options = Options::default();
        while let Some(word) = words.next() {
            let value = words.next()?;
            match word.as_str() {
                "seed" => options.seed = value.parse().ok()?,
                "times" => options.times = value.parse().ok()?,
                "seconds" => options.seconds = Some(value.parse().ok()?),
                "only" => options.only = Some(value),
                "without" => options.without = Some(value),
                _ => return None,
            }
        }
        Some(options)
    }

    pub fn wants(&self, family: &str) -> bool {
        let within = |part: &String| family.contains(part.as_str());
        self.only.as_ref().is_none_or(within) && !self.without.as_ref().is_some_and(within)
    }

    /// The arguments of this process. If they are wrong it ends with status 2.
    pub fn of_process() -> Options {
        Options::read(std::env::args().skip(1)).unwrap_or_else(|| {
            eprintln!("{USAGE}");
            std::process::exit(2)
        })
    }
}
