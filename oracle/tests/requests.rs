//! The request list meets what it is said to meet, in lines of the shape that `README.md` gives.

use uluvoli_oracle::counts::Counts;
use uluvoli_oracle::{files, requests};

/// Every failure that a read or a write can be told, A5 by each of its causes.
const FAILURES: [&str; 23] = [
    "R A3",
    "R A4",
    "R A5 key needed",
    "R A6",
    "R A7",
    "R A8",
    "W 01",
    "W 02",
    "W 03",
    "W A3",
    "W A4",
    "W A5 cashback raised",
    "W A5 cyclic block not 0",
    "W A5 key needed",
    "W A5 no cashback",
    "W A5 purse raised",
    "W A5 read-only",
    "W A5 sum too large",
    "W A6",
    "W A7",
    "W A8",
    "W AC",
    "W AF",
];

/// Refusals, shapes and places that are rarer.
const OTHERS: [&str; 23] = [
    "R done",
    "R refusal 1",
    "R refusal 2",
    "R refusal 3",
    "R refusal 5",
    "R refusal 7",
    "R with a number over 255",
    "W A5 purse raised in a later run",
    "W AF in a later run",
    "W done",
    "W done, Cyclic run of several codes",
    "W done, Purse run of several codes",
    "W done, Random run of several codes",
    "W done, cyclic runs parted by another number",
    "W done, no elements",
    "W done, several runs",
    "W refusal 1",
    "W refusal 2",
    "W refusal 3",
    "W refusal 4",
    "W refusal 7",
    "W with a code that has another limit later in the tree",
    "W with a small number in three bytes",
];

/// Each failure is met at least this often, and each of the others.
fn varied(counts: &Counts, failures: usize, others: usize) {
    for (names, times) in [(&FAILURES[..], failures), (&OTHERS[..], others)] {
        for name in names {
            let met = counts.of(name);
            assert!(met >= times, "{name}: {met}");
        }
    }
}

/// 100,000 requests meet each failure at least 500 times, and each at places 254 and 255.
#[test]
fn large_list() {
    let (_, counts) = requests::all(100_000, 1);
    varied(&counts, 500, 50);
    for sf2 in ["A3", "A4", "A5", "A6", "A7", "A8"] {
        for place in ["place 254", "place 255 or beyond"] {
            assert!(counts.of(&format!("W {sf2} at {place}")) > 0);
        }
    }
}

/// The list to be stored is varied too, and near 1 MB at most.
#[test]
fn small_list() {
    let (length, seed) = requests::SMALL;
    let (texts, counts) = requests::all(length, seed);
    varied(&counts, 5, 1);
    assert!(texts.concat().len() < 1_050_000);
    assert_eq!(requests::all(length, seed).0, texts);
}

/// Every line has the fields of its kind, and every file starts with a card and is short enough.
#[test]
fn shape() {
    let (texts, _) = requests::all(5_000, 2);
    let mut served = 0;
    for line in texts.concat().lines() {
        let fields: Vec<&str> = line.split(' ').collect();
        let count = match fields[0] {
            "T" => 5,
            "m" => 2,
            "a" => 6,
            "s" => 7,
            "l" => 5,
            "b" => 4,
            "R" | "W" => 10,
            kind => panic!("no such line: {kind}"),
        };
        assert_eq!(fields.len(), count, "{line}");
        if count == 10 {
            served += 1;
            assert!(fields[7].len() == 4 || fields[7].starts_with('!'), "{line}");
            assert_eq!(fields[9] != "00", fields[7].ends_with("A5"), "{line}");
        }
    }
    assert_eq!(served, 5_000);
    let files = files::joined(&texts);
    assert!(files.iter().all(|file| file.starts_with("T ")));
    assert!(files.iter().all(|file| file.len() <= files::MOST_BYTES));
    assert_eq!(files.concat(), texts.concat());
}
