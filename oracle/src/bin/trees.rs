//! `trees N SEED`: prints random trees with the answers to each addition and question.
//! `trees N SEED DIR` writes them as files, `trees N SEED --counts` prints what they met;
//! `--small` in place of `N SEED` is the list that is small enough to be stored.

use uluvoli_oracle::{program, trees};

/// Does what the words ask for.
fn main() -> std::io::Result<()> {
    program::run("trees", trees::SMALL, trees::all)
}
