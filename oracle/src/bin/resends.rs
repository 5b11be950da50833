//! `resends N SEED`: sends N accepted writes twice. Fails if the second time one is not accepted or
//! changes a stored byte although no purse block is named twice and each cyclic number forms a
//! single run; and if fewer than one in twenty do so where that is not so, for then nothing was
//! tried.

use std::io;
use uluvoli_oracle::counts::Counts;
use uluvoli_oracle::program;
use uluvoli_oracle::random::Random;
use uluvoli_oracle::resends::{self, HARM_ONCE_IN};

/// Sends them, and prints what they met.
fn main() -> io::Result<()> {
    let words: Vec<String> = std::env::args().skip(1).collect();
    let ([writes, seed], _) = program::numbers("resends N SEED", &words)?;
    let (mut random, mut counts) = (Random::new(seed), Counts::default());
    let harmed = resends::send(writes as usize, &mut random, resends::serve, &mut counts);
    print!("{counts}");
    if let Some(line) = harmed {
        println!("harmed by:\n{}", line.escape_ascii());
        return Err(io::Error::other("a write does harm when it is sent again"));
    }
    if counts.of("harm") * HARM_ONCE_IN < writes as usize {
        return Err(io::Error::other(
            "too few writes do harm where a premise fails",
        ));
    }
    Ok(())
}
