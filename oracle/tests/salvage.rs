//! Salvage of damaged images.

use uluvoli_oracle::salvage::cases;
use uluvoli_oracle::salvage::texts::{Texts, answer, of, parts};

/// Each text that has a name comes out as it was worked out by hand.
#[test]
fn named() {
    for case in cases::all() {
        assert_eq!(answer(&case.text), case.told, "{}", case.name);
    }
}

/// Two thousand images, named and drawn: what comes out replays, stays under a second salvage, and is the image
/// itself where that is sound (`Texts` asserts all three).
#[test]
fn damaged() {
    assert_eq!(Texts::new(7).take(2_000).count(), 2_000);
}

/// Of what is told of a text the report goes to standard error, the image to standard output.
#[test]
fn apart() {
    let text = of(b"svc".to_vec());
    assert_eq!(parts(&text), ("0\tadded\n1\t30\n", "card\t0000\t0000\n"));
}
