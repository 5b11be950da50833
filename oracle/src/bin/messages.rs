//! `messages N SEED`: prints N random cards with what is asked of messages, with the answers.
//! `messages N SEED DIR` writes them as files, `messages N SEED --counts` prints what they met, and
//! fails if they did not meet all that there is to meet;
//! `--small` in place of `N SEED` is the list that is small enough to be stored.

use uluvoli_oracle::{messages, program};

/// Does what the words ask for.
fn main() -> std::io::Result<()> {
    program::run_met(
        "messages",
        messages::SMALL,
        messages::all,
        messages::met::unmet,
    )
}
