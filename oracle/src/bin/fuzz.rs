//! `fuzz MINUTES SEED RUN`: puts changed texts to the program that `RUN test_traces` runs, for so many
//! minutes, and some of them, in pieces on standard input, to `RUN replay`; `fuzz --inspect MINUTES SEED RUN`
//! texts with questions to `RUN test_inspect` and `RUN inspect`. Fails at the first that is answered otherwise
//! than by the oracle, or that stops the program, and keeps the smallest text that shows it.

use std::io;
use std::time::{Duration, Instant};
use uluvoli_oracle::beside::mutate::Stock;
use uluvoli_oracle::beside::{AT_ONCE, Beside, LIMIT};
use uluvoli_oracle::counts::Counts;
use uluvoli_oracle::program;
use uluvoli_oracle::random::Random;
use uluvoli_oracle::texts::Text;

/// One text in this many is put to the filter as well.
const PIPED: usize = 50;

/// Changes and compares until the time is over.
fn main() -> io::Result<()> {
    let (filter, words) = program::filter();
    let ([minutes, seed], run) =
        program::numbers("fuzz [--inspect | --salvage] MINUTES SEED RUN", &words)?;
    let beside = Beside::new(filter, run.as_ref(), LIMIT)?;
    let mut stock = Stock::new(filter, seed);
    let mut random = Random::new(!seed);
    let mut counts = Counts::default();
    let (began, mut runs, mut bytes) = (Instant::now(), 0, 0);
    while began.elapsed() < Duration::from_secs(60 * minutes) {
        let changed: Vec<Text> = stock.by_ref().take(AT_ONCE).collect();
        for text in &changed {
            (filter.count)(&mut counts, text);
            bytes += text.input.len();
        }
        beside.agree(&changed)?;
        for text in changed.iter().step_by(PIPED) {
            beside.agree_piped(&mut random, text)?;
            counts.meet("piped");
        }
        runs += 1;
    }
    print!("{counts}");
    let program = filter.program;
    println!("fuzz: {bytes} bytes in {runs} runs for {program}, answered as by the oracle");
    Ok(())
}
