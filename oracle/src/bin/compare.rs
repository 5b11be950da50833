//! `compare N SEED RUN`: puts N texts of a seed to the program that `RUN test_traces` runs, and
//! one in a hundred, in pieces on standard input, to `RUN replay`; `compare --inspect N SEED RUN` texts with
//! questions to `RUN test_inspect` and `RUN inspect`, `compare --salvage N SEED RUN` damaged images to
//! `RUN salvage`. Fails at the first that is answered otherwise
//! than by the oracle, and prints the smallest text that shows it.

use std::io::{self, Write};
use uluvoli_oracle::beside::{AT_ONCE, Beside, LIMIT};
use uluvoli_oracle::counts::Counts;
use uluvoli_oracle::program;
use uluvoli_oracle::random::Random;
use uluvoli_oracle::texts::Text;

/// One text in this many is put to the filter as well.
const PIPED: usize = 100;

/// Compares batch by batch.
fn main() -> io::Result<()> {
    let (filter, words) = program::filter();
    let ([length, seed], run) =
        program::numbers("compare [--inspect | --salvage] N SEED RUN", &words)?;
    let beside = Beside::new(filter, run.as_ref(), LIMIT)?;
    let mut random = Random::new(!seed);
    let mut counts = Counts::default();
    let mut texts = (filter.texts)(seed).take(length as usize);
    loop {
        let some: Vec<Text> = texts.by_ref().take(AT_ONCE).collect();
        if some.is_empty() {
            break;
        }
        some.iter()
            .for_each(|text| (filter.count)(&mut counts, text));
        beside.agree(&some)?;
        for text in some.iter().step_by(PIPED) {
            beside.agree_piped(&mut random, text)?;
            counts.meet("piped");
        }
    }
    let mut out = io::stdout().lock();
    write!(out, "{counts}")?;
    let program = filter.program;
    writeln!(
        out,
        "compare: {length} texts for {program}, answered as by the oracle"
    )
}
