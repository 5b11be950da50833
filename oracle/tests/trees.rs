//! The tree list meets what it is said to meet, in lines of the shape that `README.md` gives.

use uluvoli_oracle::counts::Counts;
use uluvoli_oracle::{files, trees};

/// Every refusal that an addition can meet.
const REFUSALS: [u8; 15] = [7, 11, 12, 13, 14, 15, 16, 17, 18, 19, 20, 21, 22, 24, 28];

/// Each refusal is met at least 50 times, and every depth, joins of other counts and all else
/// that is looked for at least `times` times.
fn varied(counts: &Counts, times: usize) {
    for refusal in REFUSALS {
        let met = counts.of(&format!("refusal {refusal}"));
        assert!(met >= 50, "refusal {refusal}: {met}");
    }
    let mut names: Vec<String> = (1..=8)
        .flat_map(|depth| ['a', 's'].map(|letter| format!("{letter} accepted, depth {depth}")))
        .collect();
    names.extend(
        [
            "a accepted, code 0000",
            "a accepted, code again",
            "a accepted, low bit 1",
            "s accepted, code again",
            "s accepted, joins with another count",
            "s accepted, store of 0 blocks",
            "l accepted, replaces another",
            "T arena of odd length",
            "D refused",
            "D of a full table",
            "N stops at 65535",
            "K 00",
            "K 01",
            "L 00",
            "L 01",
        ]
        .map(String::from),
    );
    for name in names {
        let met = counts.of(&name);
        assert!(met >= times, "{name}: {met}");
    }
}

/// 5,000 trees of any seed are varied and near 6 MB at most.
#[test]
fn large_list() {
    for seed in [1, 2] {
        let (texts, counts) = trees::all(5_000, seed);
        varied(&counts, 50);
        assert_eq!(texts.len(), 5_000);
        assert!(texts.concat().len() < 6_200_000);
    }
}

/// The list to be stored is varied too, and near 700 KB at most.
#[test]
fn small_list() {
    let (length, seed) = trees::SMALL;
    let (texts, counts) = trees::all(length, seed);
    varied(&counts, 5);
    assert!(texts.concat().len() < 720_000);
    assert_eq!(trees::all(length, seed).0, texts);
}

/// The width of each field of a line of this kind; 0 for one whose width varies.
fn widths(kind: &str) -> &'static [usize] {
    match kind {
        "T" => &[1, 4, 4, 2, 8],
        "m" => &[1, 8],
        "a" => &[1, 8, 4, 4, 4, 2],
        "s" => &[1, 8, 4, 8, 4, 2, 4],
        "l" => &[1, 8, 8, 2, 2],
        "D" => &[1, 4, 0],
        "N" | "V" => &[1, 4, 4],
        "K" | "L" => &[1, 0, 2],
        _ => panic!("no such line: {kind}"),
    }
}

/// Every line has the fields of its kind, and every file starts with a tree and is short enough.
#[test]
fn shape() {
    let (texts, _) = trees::all(500, 3);
    for line in texts.concat().lines() {
        let fields: Vec<&str> = line.split(' ').collect();
        let widths = widths(fields[0]);
        assert_eq!(fields.len(), widths.len(), "{line}");
        for (field, &width) in fields.iter().zip(widths) {
            assert!(width == 0 || field.len() == width, "{line}");
            assert!(!field.is_empty(), "{line}");
        }
    }
    let files = files::joined(&texts);
    assert!(files.iter().all(|file| file.starts_with("T ")));
    assert!(files.iter().all(|file| file.len() <= files::MOST_BYTES));
    assert_eq!(files.concat(), texts.concat());
}
