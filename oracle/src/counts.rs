//! How often a list met each thing.

use std::collections::BTreeMap;
use std::fmt;

/// Names of things with the number of times each was met.
#[derive(Default)]
pub struct Counts(BTreeMap<String, usize>);

impl Counts {
    /// Counts one more of this name.
    pub fn meet(&mut self, name: impl Into<String>) {
        *self.0.entry(name.into()).or_insert(0) += 1;
    }

    /// How often this name was met.
    pub fn of(&self, name: &str) -> usize {
        self.0.get(name).copied().unwrap_or(0)
    }
}

impl fmt::Display for Counts {
    /// A line for each name, with its number ahead.
    fn fmt(&self, out: &mut fmt::Formatter<'_>) -> fmt::Result {
        for (name, count) in &self.0 {
            writeln!(out, "{count:8} {name}")?;
        }
        Ok(())
    }
}
