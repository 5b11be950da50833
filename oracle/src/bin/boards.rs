//! `boards N SEED`: prints N random cards with boards and what is written in between, with the answers.
//! `boards N SEED DIR` writes them as files, `boards N SEED --counts` prints what they met;
//! `--small` in place of `N SEED` is the list that is small enough to be stored.

use uluvoli_oracle::{boards, program};

/// Does what the words ask for.
fn main() -> std::io::Result<()> {
    program::run("boards", boards::SMALL, boards::all)
}
