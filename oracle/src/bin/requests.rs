//! `requests N SEED`: prints random requests on random cards with the answers.
//! `requests N SEED DIR` writes them as files, `requests N SEED --counts` prints what they met;
//! `--small` in place of `N SEED` is the list that is small enough to be stored.

use uluvoli_oracle::{program, requests};

/// Does what the words ask for.
fn main() -> std::io::Result<()> {
    program::run("requests", requests::SMALL, requests::all)
}
