//! `terminals N SEED`: N random pairs of request lists that name no common service number, each in
//! several orders. Fails if a request is told something else than in its own list alone, or the
//! stores end otherwise.

use std::io;
use uluvoli_oracle::counts::Counts;
use uluvoli_oracle::program;
use uluvoli_oracle::random::Random;
use uluvoli_oracle::replay::replay;
use uluvoli_oracle::terminals::Pair;

/// Draws the pairs, compares, and prints what they met.
fn main() -> io::Result<()> {
    let words: Vec<String> = std::env::args().skip(1).collect();
    let ([pairs, seed], _) = program::numbers("terminals N SEED", &words)?;
    let mut random = Random::new(seed);
    let mut counts = Counts::default();
    for _ in 0..pairs {
        if let Some(text) = Pair::draw(&mut random).disturbed(replay, &mut counts) {
            println!("disturbed:\n{}", text.escape_ascii());
            return Err(io::Error::other("an order is told something else"));
        }
    }
    print!("{counts}");
    Ok(())
}
