//! The list of texts meets what it is said to meet.

use std::collections::BTreeSet;
use uluvoli_oracle::counts::Counts;
use uluvoli_oracle::replay::replay;
use uluvoli_oracle::texts::{self, Text};

/// The texts of this kind.
fn of_kind<'a>(texts: &'a [Text], kind: &str) -> Vec<&'a Text> {
    texts.iter().filter(|text| text.kind == kind).collect()
}

/// A list meets every refusal of an image and of a request and every SF2 so many times, and all
/// else that replay can say at least once.
fn meets(counts: &Counts, image: usize, requests: usize) {
    let refusals = (11..=24).chain([28, 30]);
    let image = refusals.map(|number| (format!("image refused {number}"), image));
    let refused = [1, 2, 3, 6, 40, 41, 42, 43];
    let refused = refused.map(|number| format!("request refused {number}"));
    let sf2 = [
        "01", "02", "03", "A3", "A4", "A5", "A6", "A7", "A8", "AC", "AF",
    ];
    let sf2 = sf2.map(|sf2| format!("SF2 {sf2}"));
    let names = refused.into_iter().chain(sf2);
    for (name, times) in image.chain(names.map(|name| (name, requests))) {
        let met = counts.of(&name);
        assert!(met >= times, "{name}: {met}");
    }
    assert_eq!(texts::unmet(counts), Vec::<String>::new());
}

/// The list of 5,000 texts has every kind and meets everything often.
#[test]
fn varied() {
    let (texts, counts) = texts::all(5_000, 1);
    meets(&counts, 10, 100);
    assert!(counts.of("nothing printed") > 20);
    assert!(counts.of("done") > 5_000);
    let unended = texts.iter().filter(|text| !text.input.ends_with(b"\n"));
    assert!(unended.count() > 100);
    assert!(texts.iter().any(|text| text.input.is_empty()));
    assert!(texts.iter().any(|text| text.input.len() > 131_072));
    for kind in [
        "tree",
        "element checks",
        "purse",
        "cyclic",
        "mixed",
        "malformed",
        "two terminals",
        "long line",
        "board",
    ] {
        assert!(of_kind(&texts, kind).len() > 150, "{kind}");
    }
    assert!(of_kind(&texts, "large").len() > 20);
    assert!(of_kind(&texts, "refused image").len() > 900);
    assert!(of_kind(&texts, "another count").len() > 80);
}

/// Texts about purses have each of their faults, those about rings theirs, and neither those of
/// the other.
#[test]
fn tastes() {
    let (texts, _) = texts::all(4_000, 1);
    let has = |kind: &str, sf2: &str| {
        let texts = of_kind(&texts, kind);
        let mut lines = texts.iter().flat_map(|text| text.output.lines());
        lines.any(|line| line.split('\t').nth(2) == Some(sf2))
    };
    for sf2 in ["01", "02", "03"] {
        assert!(has("purse", sf2) && !has("cyclic", sf2), "{sf2}");
    }
    assert!(has("cyclic", "AF") && !has("purse", "AF"));
    for sf2 in ["A3", "A4", "A5", "A6", "A7", "A8"] {
        assert!(has("element checks", sf2), "{sf2}");
    }
    assert!(has("tree", "A8") && has("malformed", "6"));
}

/// Every malformed line is refused as one: with 30 in an image, with 6 after a request.
#[test]
fn malformed() {
    let (texts, _) = texts::all(700, 1);
    let texts = of_kind(&texts, "malformed line");
    assert!(texts.len() > 200);
    for text in texts {
        let shown = text.input.escape_ascii();
        if text.output.starts_with("image\t") {
            let thirty = ["image\t1\t30\n", "image\t3\t30\n"];
            assert!(thirty.contains(&text.output.as_str()), "{shown}");
            continue;
        }
        let mut lines = text.output.lines();
        assert!(
            lines
                .next()
                .is_some_and(|line| line.starts_with("1\t00\t00"))
        );
        assert!(
            lines.all(|line| line.ends_with("\t!\t6\t-\t-\t-")),
            "{shown}"
        );
    }
}

/// Lines of 32,767, 32,768 and 32,769 bytes come with every first field and in every place, and
/// a write of 32,768 bytes is carried out.
#[test]
fn long_lines() {
    let (texts, _) = texts::all(3_400, 1);
    let texts = of_kind(&texts, "long line");
    let mut met = BTreeSet::new();
    for text in &texts {
        let mut place = "first";
        for (at, line) in text.input.split(|&byte| byte == b'\n').enumerate() {
            let first = line.split(|&byte| byte == b'\t').next().unwrap_or(line);
            let first = String::from_utf8_lossy(&first[..first.len().min(5)]).into_owned();
            if at > 0 && place == "first" {
                place = "image";
            }
            if (32_767..=32_769).contains(&line.len()) {
                met.insert((first.clone(), line.len(), place));
            }
            if ["R", "W"].contains(&first.as_str()) && at > 0 {
                place = "request";
            }
        }
    }
    for first in [
        "card", "area", "svc", "lim", "blk", "R", "W", "00000", "X0000",
    ] {
        for length in 32_767..=32_769 {
            for place in ["first", "image", "request"] {
                let known = (first.to_string(), length, place);
                assert!(met.contains(&known), "{known:?}");
            }
        }
    }
    let carried_out = texts.iter().any(|text| {
        let lines = text.input.split(|&byte| byte == b'\n');
        let long: Vec<&[u8]> = lines.filter(|line| line.len() == 32_768).collect();
        let write = long.first().is_some_and(|line| line.starts_with(b"W\t"));
        write && text.output.starts_with("1\t00\t00\t-\t")
    });
    assert!(carried_out);
}

/// The stored list starts with the whole case of docs/RULES.md, meets all that replay can say, has
/// lines of the greatest length and one more, ended and not, and is the same each time.
#[test]
fn stored() {
    let (length, seed) = texts::SMALL;
    let (texts, counts) = texts::all(length, seed);
    assert_eq!(texts.len(), length);
    meets(&counts, 4, 10);
    let whole = "1|00|00|-|-|-\n2|00|00|-|11111111111111111111111111111111|-\n3|01|A8|1|-|-\n";
    assert_eq!(texts[0].output, whole.replace('|', "\t"));
    let bytes: usize = texts.iter().map(|text| text.input.len()).sum();
    assert!(bytes < 1_900_000, "{bytes}");
    for most in [32_768, 32_769] {
        for ended in [true, false] {
            let has = texts.iter().any(|text| {
                let mut lines = text.input.split_inclusive(|&byte| byte == b'\n');
                lines.any(|line| {
                    line.len() == most + usize::from(ended) && line.ends_with(b"\n") == ended
                })
            });
            assert!(has, "{most} {ended}");
        }
    }
    assert!(texts.iter().any(|text| text.output.len() > 65_536));
    assert!(of_kind(&texts, "two terminals").len() > 10);
    let again = texts::all(length, seed).0;
    for (text, same) in texts.iter().zip(&again) {
        assert_eq!(text.input, same.input);
        assert_eq!(text.output, replay(&text.input));
    }
}

/// Of the writes that are sent twice the first does no harm; a purse block named twice is paid from
/// twice more, or raised and so refused; a ring in two runs turns on.
#[test]
fn sent_twice() {
    let (texts, _) = texts::all(600, 1);
    let told: Vec<Vec<String>> = (of_kind(&texts, "sent twice").iter())
        .map(|text| {
            text.output
                .lines()
                .map(|line| line[2..].to_string())
                .collect()
        })
        .collect();
    let [every, twice, parted, lowered, turned] = told.as_slice() else {
        panic!("five are stored");
    };
    let done = "00\t00\t-\t-\t-";
    for told in &told {
        assert_eq!(told[0], done);
    }
    for told in [every, twice, parted, turned] {
        assert_eq!(told[2], done);
    }
    assert_eq!(lowered[2], "01\tA5\t1\t-\t5");
    assert_eq!(every[1], every[3]);
    for told in [twice, parted, turned] {
        assert_ne!(told[1], told[3]);
    }
}

/// Of the services that join, those of another count than their store are refused with 24 on a card that
/// does not join, at their line, and taken on one that does; what is refused otherwise is so on both; the
/// malformed lines are refused with 30.
#[test]
fn joined() {
    let (texts, _) = texts::all(600, 1);
    let told: Vec<&str> = (of_kind(&texts, "joined").iter())
        .map(|text| text.output.as_str())
        .collect();
    let differ = [3, 3, 3, 0, 3, 3, 0, 4, 3, 4, 4, 3, 3, 0];
    let (joined, others) = told.split_at(2 * differ.len());
    for (pair, line) in joined.as_chunks::<2>().0.iter().zip(differ) {
        match line {
            0 => assert_eq!(pair[0], pair[1]),
            _ => assert_eq!(pair[0], format!("image\t{line}\t24\n")),
        }
        assert_eq!(pair[1].lines().count(), 3, "{}", pair[1]);
    }
    let (refused, malformed) = others.split_at(12);
    let ahead = [(3, 21), (3, 13), (3, 16), (4, 17), (3, 19), (4, 22)];
    for (pair, (line, refusal)) in refused.as_chunks::<2>().0.iter().zip(ahead) {
        let expected = format!("image\t{line}\t{refusal}\n");
        assert_eq!(pair, &[&expected, &expected]);
    }
    assert_eq!(malformed.len(), 15);
    assert!(malformed.iter().all(|told| told.ends_with("\t30\n")));
}
