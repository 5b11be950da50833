//! The leaf answers: questions that need no card, each with the Rust's answer, one a line.
//!
//! The list is the same on every run. A line starts with its kind's letter; the fields are
//! described in `README.md` and above the function that writes them.

mod codes;
mod cyclic;
mod elements;
mod purse;

use crate::random::Random;
use std::collections::BTreeMap;

/// Fixes every number drawn for the list.
const SEED: u64 = 0x756C_7576_6F6C_6931;

/// One question with its answer, and the name of what it met, for the counts.
pub struct Leaf {
    pub line: String,
    pub met: String,
}

impl Leaf {
    /// A line together with the name of what it met.
    fn new(line: String, met: impl Into<String>) -> Self {
        Leaf {
            line,
            met: met.into(),
        }
    }
}

/// Every leaf in the order of the list: A, P, B, U, C, I.
pub fn all() -> Vec<Leaf> {
    let mut random = Random::new(SEED);
    let mut leaves = codes::attributes();
    leaves.extend(elements::packed(&mut random));
    leaves.extend(elements::places());
    leaves.extend(purse::writes(&mut random));
    leaves.extend(cyclic::writes(&mut random));
    leaves.extend(elements::positions());
    leaves
}

/// How many lines met each thing.
pub fn counts(leaves: &[Leaf]) -> BTreeMap<&str, usize> {
    let mut counts = BTreeMap::new();
    for leaf in leaves {
        *counts.entry(leaf.met.as_str()).or_insert(0) += 1;
    }
    counts
}
