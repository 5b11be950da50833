//! Boards are what docs/RULES.md says of them, and the list has all that it says it has.

use std::collections::BTreeSet;
use uluvoli_oracle::board::board;
use uluvoli_oracle::draw::lanes::{block, lanes};
use uluvoli_oracle::random::Random;
use uluvoli_oracle::replay::replay;
use uluvoli_oracle::texts::boards::{self, cases, met};
use uluvoli_oracle::texts::{self, Text};

/// Each text that has a name prints what stands beside it, and no name comes twice.
#[test]
fn named() {
    let mut names = BTreeSet::new();
    for case in cases::all() {
        let printed = replay(case.text.replace('|', "\t").as_bytes());
        assert_eq!(printed, case.told.replace('|', "\t"), "{}", case.name);
        assert!(names.insert(case.name), "{}", case.name);
    }
    assert!(names.len() > 60);
}

/// A board of eight blocks, worked out by hand.
#[test]
fn by_hand() {
    let mut blocks = [[0; 16]; 8];
    blocks[0] = *b"\x01\x07\x00LEANDER     \x00";
    blocks[2] = *b"\x03\x07\x00 A  B       \x00";
    blocks[7] = *b"\x08\x07\x00            \x00";
    let lines = "1|7|LEANDER\n2|-|-\n3|7| A  B\n4|-|-\n5|-|-\n6|-|-\n7|-|-\n8|7|\n";
    assert_eq!(board(&blocks), Ok(lines.replace('|', "\t")));
    blocks[7][1..3].copy_from_slice(b"\x07\x01");
    assert_eq!(board(&blocks), Err(40));
    blocks[7][15] = 1;
    assert_eq!(board(&blocks), Err(43));
    blocks[2][14] = 0x7F;
    assert_eq!(board(&blocks), Err(42));
    blocks[0][0] = 2;
    assert_eq!(board(&blocks), Err(41));
    blocks[0] = [0; 16];
    assert_eq!(board(&blocks), Err(42));
}

/// What is drawn as the lanes of one race makes a board of eight lines, of three fields each.
#[test]
fn drawn() {
    let mut random = Random::new(2);
    for _ in 0..2_000 {
        let board = board(&lanes(&mut random)).unwrap();
        let rows: Vec<Vec<&str>> = board
            .lines()
            .map(|line| line.split('\t').collect())
            .collect();
        assert_eq!(rows.len(), 8);
        for (lane, row) in (1..).zip(rows) {
            assert_eq!((row.len(), row[0]), (3, lane.to_string().as_str()));
            assert!(!row[2].ends_with(' '));
            assert_eq!(row[1] == "-", row[1].parse::<u16>().is_err());
        }
    }
    assert_eq!(board(&[block(1, 513, "A", 0)]), Ok("1\t513\tA\n".into()));
}

/// A list of 3,000 texts has boards and each of their refusals hundreds of times, and every thing that a
/// refresh is said to meet is one of those that have to be met.
#[test]
fn often() {
    let (texts, counts) = texts::all(3_000, 2);
    for name in ["sound", "40", "41", "42", "43"] {
        let met = counts.of(&format!("board: {name}"));
        assert!(met > 200, "{name}: {met}");
    }
    assert!(counts.of("text: board") > 500);
    for name in texts.iter().flat_map(|text| &text.met) {
        assert!(met::ALL.contains(&name.as_str()), "{name}");
    }
}

/// Whether a line is a refresh.
fn refresh(line: &&[u8]) -> bool {
    *line == b"L" || line.starts_with(b"L\t")
}

/// The answers of a text, one for each line after its image: a board whole, another without its ordinal.
fn answers(lines: &[&[u8]]) -> Vec<String> {
    let printed = replay(&lines.join(&b'\n'));
    let mut printed = printed.lines();
    let mut answers = Vec::new();
    while let Some(line) = printed.next() {
        let fields: Vec<&str> = line.split('\t').collect();
        answers.push(match fields.as_slice() {
            [_, _, _] => [line].into_iter().chain(printed.by_ref().take(7)).collect(),
            fields => fields[1..].join("\t"),
        });
    }
    answers
}

/// No refresh has a part in any later answer: without the others, the last one prints the same board, and
/// without any, all other lines are told the same but for their ordinals.
#[test]
fn refreshes_leave_nothing() {
    let mut boards = 0;
    for seed in 100..400 {
        let text = boards::text(&mut Random::new(seed), 10);
        if replay(&text).starts_with("image") {
            continue; // The first line after the image was spoilt so that it is no request.
        }
        let lines: Vec<&[u8]> = text.split(|&byte| byte == b'\n').collect();
        let first = lines
            .iter()
            .position(|line| matches!(line.first(), Some(b'R' | b'W' | b'L')));
        let (image, requests) = lines[..lines.len() - 1].split_at(first.unwrap());
        let told = answers(&lines[..lines.len() - 1]);
        assert_eq!(told.len(), requests.len());
        let (refreshes, others): (Vec<usize>, Vec<usize>) =
            (0..requests.len()).partition(|&at| refresh(&requests[at]));
        // A read ahead of all ends the image, whatever the first line after it is.
        let start = [image, &[b"R\tO\t-\t0\t-"]].concat();
        let asked = |ats: &[usize]| -> Vec<String> {
            let requests = ats.iter().map(|&at| requests[at]);
            answers(&start.iter().copied().chain(requests).collect::<Vec<_>>())
        };
        let kept: Vec<&String> = others.iter().map(|&at| &told[at]).collect();
        assert_eq!(asked(&others)[1..].iter().collect::<Vec<_>>(), kept);
        for &at in &refreshes {
            let before = others.iter().copied().filter(|&other| other < at);
            let alone = asked(&before.chain([at]).collect::<Vec<_>>());
            assert_eq!(alone.last(), Some(&told[at]), "{seed}");
            boards += usize::from(told[at].starts_with("1\t"));
        }
    }
    assert!(boards > 300, "{boards}");
}

/// Text that is no text of a list is watched as well.
#[test]
fn watched() {
    let text = Text::of(b"card\t0001\t0000\nsvc\t1\t1049\t8\t0000\nL\t1049\n".to_vec());
    assert!(
        text.met
            .iter()
            .any(|name| name == "sound, eight empty lanes")
    );
    assert!(Text::of(b"L\t1049\n".to_vec()).met.is_empty());
}

/// The list for the library has boards and each of their refusals, in lines of the shape that `README.md`
/// gives.
#[test]
fn listed() {
    let (length, seed) = uluvoli_oracle::boards::SMALL;
    let (texts, counts) = uluvoli_oracle::boards::all(length, seed);
    for answer in ["0000", "!05", "!07", "!28", "!29", "!2A", "!2B"] {
        assert!(counts.of(&format!("B {answer}")) > 50, "{answer}");
    }
    for line in texts.iter().flat_map(|text| text.lines()) {
        let fields: Vec<&str> = line.split(' ').collect();
        if let ["B", code, room, answer, lanes] = fields.as_slice() {
            let board = if *answer == "0000" { 256 } else { 1 };
            assert_eq!(
                (code.len(), room.len(), lanes.len()),
                (4, 8, board),
                "{line}"
            );
        } else {
            assert!("TasbmRW".contains(fields[0]), "{line}");
        }
    }
}
