//! The options of a command line: `--name number`, and `--flag`.

use std::env;
use std::fmt;

/// The options that were given, and the defaults of the others.
#[derive(Clone, Debug)]
pub struct Options {
    numbers: Vec<(&'static str, u64)>,
    flags: Vec<(&'static str, bool)>,
}

/// A word of the command line that is not understood.
#[derive(Clone, Debug, PartialEq, Eq)]
pub struct BadOption(String);

impl fmt::Display for BadOption {
    fn fmt(&self, f: &mut fmt::Formatter<'_>) -> fmt::Result {
        write!(f, "not an option, or without its number: {}", self.0)
    }
}

impl std::error::Error for BadOption {}

impl Options {
    /// Reads the command line. `numbers` has the options with a number and their defaults.
    pub fn read(
        numbers: &[(&'static str, u64)],
        flags: &[&'static str],
    ) -> Result<Self, BadOption> {
        let mut options = Options {
            numbers: numbers.to_vec(),
            flags: flags.iter().map(|&flag| (flag, false)).collect(),
        };
        let mut words = env::args().skip(1);
        while let Some(word) = words.next() {
            options.take(&word, &mut words).ok_or(BadOption(word))?;
        }
        Ok(options)
    }

    fn take(&mut self, word: &str, words: &mut impl Iterator<Item = String>) -> Option<()> {
        let name = word.strip_prefix("--")?;
        if let Some((_, set)) = self.flags.iter_mut().find(|(flag, _)| *flag == name) {
            *set = true;
            return Some(());
        }
        let (_, number) = self.numbers.iter_mut().find(|(known, _)| *known == name)?;
        *number = words.next()?.replace('_', "").parse().ok()?;
        Some(())
    }

    /// The number of an option.
    pub fn number(&self, name: &str) -> u64 {
        let found = self.numbers.iter().find(|(known, _)| *known == name);
        found.map_or(0, |&(_, number)| number)
    }

    /// Whether a flag was given.
    pub fn flag(&self, name: &str) -> bool {
        self.flags.iter().any(|&(flag, set)| set && flag == name)
    }
}
