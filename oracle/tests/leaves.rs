//! The leaf list is as large, as varied and as shaped as it is said to be.

use std::collections::BTreeMap;
use uluvoli_oracle::{files, leaves};

/// Every outcome that a purse write can have, by step, without and with a limit. A direct
/// write without a limit is always in range; a decrement is never above 4,294,967,295 and a
/// cashback never below 0; with a limit the sum of two signed values is never too large.
const PURSE: [&str; 25] = [
    "U Direct, no limit: A5 purse raised",
    "U Direct, no limit: A5 cashback raised",
    "U Direct, no limit: A5 sum too large",
    "U Direct, no limit: stored",
    "U Direct, limit: A5 purse raised",
    "U Direct, limit: A5 cashback raised",
    "U Direct, limit: 03 below",
    "U Direct, limit: 03 above",
    "U Direct, limit: stored",
    "U Decrement, no limit: unchanged",
    "U Decrement, no limit: 01 below",
    "U Decrement, no limit: stored",
    "U Decrement, limit: unchanged",
    "U Decrement, limit: 03 below",
    "U Decrement, limit: 03 above",
    "U Decrement, limit: stored",
    "U Cashback, no limit: unchanged",
    "U Cashback, no limit: 02",
    "U Cashback, no limit: 01 above",
    "U Cashback, no limit: stored",
    "U Cashback, limit: unchanged",
    "U Cashback, limit: 02",
    "U Cashback, limit: 03 below",
    "U Cashback, limit: 03 above",
    "U Cashback, limit: stored",
];

/// Each outcome is met at least 300 times, and no other outcome of a purse write is met.
#[test]
fn every_outcome_is_met() {
    let leaves = leaves::all();
    let counts = leaves::counts(&leaves);
    for met in PURSE {
        let count = counts.get(met).copied().unwrap_or(0);
        assert!(count >= 300, "{met}: {count}");
    }
    for met in ["C stored", "C unchanged", "C too long"] {
        assert!(counts[met] >= 300, "{met}");
    }
    for met in counts.keys().filter(|met| met.starts_with('U')) {
        assert!(PURSE.contains(met), "{met}");
    }
}

/// Each kind has its number of lines, and all together are over 20,000.
#[test]
fn every_kind_has_its_lines() {
    let leaves = leaves::all();
    let mut kinds = BTreeMap::new();
    for leaf in &leaves {
        *kinds.entry(&leaf.line[..1]).or_insert(0) += 1;
    }
    assert_eq!(kinds["A"], 20 * 64);
    assert!(kinds["P"] >= 2_000);
    assert_eq!(kinds["B"], 256);
    assert!(kinds["U"] >= 16_000);
    assert!(kinds["C"] >= 1_500);
    assert_eq!(kinds["I"], 301);
    assert!(leaves.len() > 20_000);
}

/// The rows of docs/RULES.md that are leaves stand in the list or follow its form.
#[test]
fn known_rows() {
    let lines: Vec<String> = leaves::all().into_iter().map(|leaf| leaf.line).collect();
    for row in [
        "A 1048 0041 08 01 01 01 01 00",
        "A FFFF 03FF 3F 00 00 00 00 00",
        "P 00FF 01 00 81FF",
        "P 0100 01 01 110001",
        "B 81 03 010809000000000000000000000000",
        "B FF 0F 0102030405060708090A0B0C0D0E0F",
        "I 00FD FE",
        "I 00FE FF",
        "I 012C FF",
    ] {
        assert!(lines.iter().any(|line| line == row), "{row}");
    }
}

/// The files hold the lines and nothing else, and none is too long.
#[test]
fn files_are_cut_at_line_ends() {
    let leaves = leaves::all().into_iter();
    let lines: Vec<String> = leaves.map(|leaf| leaf.line + "\n").collect();
    let texts = files::joined(&lines);
    assert!(texts.iter().all(|text| text.len() <= files::MOST_BYTES));
    assert!(texts.iter().all(|text| text.ends_with('\n')));
    assert_eq!(texts.concat(), lines.concat());
}
