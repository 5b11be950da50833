//! Two terminals whose requests name no common service number do not disturb each other, and one
//! that is disturbed is found out.

use uluvoli_oracle::counts::Counts;
use uluvoli_oracle::random::Random;
use uluvoli_oracle::replay::replay;
use uluvoli_oracle::terminals::Pair;

/// No pair is disturbed, and many change the stores on both sides.
#[test]
fn undisturbed() {
    let mut random = Random::new(1);
    let mut counts = Counts::default();
    for _ in 0..200 {
        let pair = Pair::draw(&mut random);
        assert_eq!(pair.disturbed(replay, &mut counts), None);
    }
    assert_eq!(counts.of("pairs"), 200);
    assert!(counts.of("pairs of which both lists change the stores") > 30);
    for name in ["answers: done", "answers: failed", "answers: refused"] {
        assert!(counts.of(name) > 200, "{name}");
    }
}

/// A card on which a store moves with every second request, or whose answers do, is found out.
#[test]
fn disturbed() {
    let by_ordinal = |text: &[u8]| replay(text).replace("\n5\t00\t00", "\n5\t01\tA8");
    let by_length = |text: &[u8]| {
        let printed = replay(text);
        match printed.lines().count() % 2 {
            0 => printed.replace("00", "01"),
            _ => printed,
        }
    };
    for wrong in [&by_ordinal as &dyn Fn(&[u8]) -> String, &by_length] {
        let mut random = Random::new(1);
        let mut counts = Counts::default();
        let found = (0..100).any(|_| {
            let pair = Pair::draw(&mut random);
            pair.disturbed(wrong, &mut counts).is_some()
        });
        assert!(found);
    }
}

/// The premise is needed: two lists that name one number disturb each other.
#[test]
fn one_number() {
    let image = "card\t0001\t0000\nsvc\t1\t1049\t1\t0000\n";
    let write = "W\tO\t1049\t1\t8000\t11111111111111111111111111111111\n";
    let read = "R\tO\t1049\t1\t8000\n";
    let told = |lines: &[&str]| replay([image, &lines.concat()].concat().as_bytes());
    let last = |printed: String| printed.lines().last().map(|line| line[2..].to_string());
    assert_ne!(last(told(&[read])), last(told(&[write, read])));
}
