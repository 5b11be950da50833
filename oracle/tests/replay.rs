//! Replay prints what docs/RULES.md and the readings settled for it say.

use uluvoli_oracle::random::Random;
use uluvoli_oracle::replay::replay;

/// What is printed for lines written with `|` for a tab, each with its LF.
fn lines(lines: &[&str]) -> String {
    replay((lines.join("\n") + "\n").replace('|', "\t").as_bytes())
}

/// What is printed after a card with a random store of two blocks and a purse of one.
fn after_card(further: &[&str]) -> String {
    let image = [
        "card|0001|0000",
        "svc|1|1049|2|0000",
        "svc|1|104B|2|0000",
        "svc|1|2055|1|0000",
    ];
    lines(&[&image[..], further].concat())
}

/// The number that refuses this line as the fifth of an image, 0 if it is accepted.
fn image_line(line: &str) -> u32 {
    match after_card(&[line]).strip_prefix("image\t5\t") {
        Some(number) => number.trim_end().parse().unwrap(),
        None => 0,
    }
}

/// The second to the fourth field that are printed for this request line.
fn request_line(line: &str) -> String {
    let printed = after_card(&[line]);
    let fields: Vec<&str> = printed.trim_end().split('\t').collect();
    assert_eq!((fields.len(), fields[0]), (6, "1"), "{printed}");
    fields[1..4].join(" ")
}

/// The whole case of docs/RULES.md, and what it is without `join`.
#[test]
fn whole_case() {
    let after = |card| {
        lines(&[
            card,
            "svc|1|1049|2|0000",
            "svc|1|104B|5|0000",
            "W|O|1049|1|8001|11111111111111111111111111111111",
            "R|O|104B|1|8001",
            "R|O|104B|1|8002",
        ])
    };
    let expected = "1|00|00|-|-|-\n2|00|00|-|11111111111111111111111111111111|-\n3|01|A8|1|-|-\n";
    assert_eq!(after("card|0001|0000|join"), expected.replace('|', "\t"));
    assert_eq!(after("card|0001|0000"), "image\t3\t24\n");
}

/// Line 1 is `card`, and no other line is; empty input is refused at line 1.
#[test]
fn first_line() {
    assert_eq!(replay(b""), "image\t1\t30\n");
    for first in [
        "",
        "svc|1|1049|2|0000",
        "R|O|-|0|-",
        "W",
        "L|1049",
        "L",
        "card|1|0",
        "Card|0001|0000",
        "card|0001|0000|",
        "card|0001|0000|JOIN",
        "card|0001|0000|joint",
        "card|0001|0000|join|",
        "card|0001|join",
    ] {
        assert_eq!(lines(&[first, "R|O|-|0|-"]), "image\t1\t30\n", "{first}");
    }
    assert_eq!(lines(&["card|0001|0000"]), "");
    assert_eq!(lines(&["card|0001|0000|join"]), "");
    assert_eq!(
        lines(&["card|0001|0000", "card|0001|0000"]),
        "image\t2\t30\n"
    );
    let after = lines(&["card|0001|0000", "R|O|-|0|-", "card|0001|0000"]);
    assert_eq!(after, "1\t00\t00\t-\t-\t-\n2\t!\t6\t-\t-\t-\n");
}

/// Only LF ends a line, and the last line needs none; an empty line is a line.
#[test]
fn line_ends() {
    let card = b"card\t0001\t0000\n";
    let text = |rest: &[u8]| replay(&[card, rest].concat());
    assert_eq!(text(b"R\tO\t-\t0\t-"), "1\t00\t00\t-\t-\t-\n");
    assert_eq!(text(b"R\tO\t-\t0\t-\n"), "1\t00\t00\t-\t-\t-\n");
    assert_eq!(
        text(b"R\tO\t-\t0\t-\n\n"),
        "1\t00\t00\t-\t-\t-\n2\t!\t6\t-\t-\t-\n"
    );
    assert_eq!(text(b"\nR\tO\t-\t0\t-\n"), "image\t2\t30\n");
    assert_eq!(text(b"R\tO\t-\t0\t-\r\n"), "1\t!\t6\t-\t-\t-\n");
    assert_eq!(text(b"R\r\n"), "image\t2\t30\n");
    assert_eq!(text(b"R\0\n"), "image\t2\t30\n");
    assert_eq!(text(b" R\tO\t-\t0\t-\n"), "image\t2\t30\n");
    assert_eq!(replay(b"\n"), "image\t1\t30\n");
}

/// Image lines: accepted, malformed, or refused by the card.
#[test]
fn image_lines() {
    for (line, number) in [
        ("area|1|0000|fffe|ffff", 0),
        ("area|1|0000|FFFE|FFFF|", 30),
        ("area|1|0000|FFFE", 30),
        ("area|01|0000|FFFE|0000", 30),
        ("area|-1|0000|FFFE|0000", 30),
        ("area|+1|0000|FFFE|0000", 30),
        ("area|1|000|FFFE|0000", 30),
        ("area|1|0000 |FFFE|0000", 30),
        ("area|4294967295|0000|FFFE|0000", 21),
        ("area|4294967296|0000|FFFE|0000", 30),
        ("svc|1|3049|4093|0000", 0),
        ("svc|1|3049|4094|0000", 22),
        ("svc|1|3049||0000", 30),
        ("svc|1|3049|-|0000", 30),
        ("svc|1|104C|1|0000", 19),
        ("svc|1|1048|2|0000", 0),
        ("svc|1|1048|1|0000", 24),
        ("svc|1|1048|4095|0000", 24),
        ("svc|1|2057|0|0000", 24),
        ("svc|1|1048|2|0000|join", 30),
        ("lim|1|-1|0", 0),
        ("lim|2147483647|-2147483648|255", 0),
        ("lim|2147483648|0|0", 30),
        ("lim|0|-2147483649|0", 30),
        ("lim|0|0|256", 30),
        ("lim|-0|0|0", 30),
        ("lim|0|0|00", 30),
        ("blk|104B|1|00112233445566778899aaBBccDDeeFF", 0),
        ("blk|104B|2|00112233445566778899AABBCCDDEEFF", 23),
        ("blk|1048|0|00112233445566778899AABBCCDDEEFF", 23),
        ("blk|0000|0|00112233445566778899AABBCCDDEEFF", 23),
        ("blk|104B|4294967295|00112233445566778899AABBCCDDEEFF", 23),
        ("blk|104B|1|00112233445566778899AABBCCDDEEF", 30),
        ("blk|104B|1|-", 30),
        ("lims|1|1|1", 30),
        ("", 30),
        ("X", 30),
    ] {
        assert_eq!(image_line(line), number, "{line}");
    }
    assert_eq!(lines(&["card|0001|0000", "lim|1|1|1"]), "image\t2\t28\n");
}

/// Request lines: served, malformed, or refused by the card.
#[test]
fn request_lines() {
    let block = "00112233445566778899aabbccddeeff";
    let write = |data: &str| format!("W|O|1049|1|8000|{data}");
    for (line, printed) in [
        ("R|O|-|0|-", "00 00 -"),
        ("R|S|1049104b|1|8100", "00 00 -"),
        ("R|O|1049|1|8000|", "! 6 -"),
        ("R|O|1049|1", "! 6 -"),
        ("R|o|1049|1|8000", "! 6 -"),
        ("R|O||1|8000", "! 6 -"),
        ("R|O|104|1|8000", "! 6 -"),
        ("R|O|104910|1|8000", "! 6 -"),
        ("R|O|1049|1|800", "! 6 -"),
        ("R|O|1049|01|8000", "! 6 -"),
        ("R|O|1049|4294967296|8000", "! 6 -"),
        ("R|O|1049|4294967295|8000", "! 1 -"),
        ("R|O|1049|513|-", "! 1 -"),
        ("R|O|1049|1|-", "! 3 -"),
        ("R|O|1049|1|800000", "! 3 -"),
        ("R|O|1049|0|8000", "! 3 -"),
        ("L|1049", "03 A8 3"),
        ("L|104b", "03 A8 3"),
        ("L|2055", "02 A8 2"),
        ("L|1048", "01 A6 1"),
        ("L|FFFF", "01 A4 1"),
        ("L|10491049", "! 6 -"),
        ("L|1049|", "! 6 -"),
        ("L|-", "! 6 -"),
        ("L|", "! 6 -"),
        ("L", "! 6 -"),
        ("R", "! 6 -"),
        ("W", "! 6 -"),
        ("W|O|1049|1|8000", "! 6 -"),
        ("W|O|1049|1|8000|0", "! 6 -"),
        ("W|O|1049|1|8000|-", "FF AC *"),
        ("W|O|-|0|-|-", "00 00 -"),
        (&write(block), "00 00 -"),
        (&write(&block[..30]), "FF AC *"),
        (&write(&block.repeat(2)), "00 00 -"),
    ] {
        assert_eq!(request_line(line), printed, "{line}");
    }
    let codes = "1049".repeat(17);
    assert_eq!(request_line(&format!("R|O|{codes}|0|-")), "! 2 -");
}

/// A purse block.
fn purse(purse: u32, cashback: u32) -> String {
    let bytes = |number: u32| {
        number
            .to_le_bytes()
            .map(|byte| format!("{byte:02X}"))
            .concat()
    };
    bytes(purse) + &bytes(cashback) + "00000000" + &bytes(1)
}

/// The last column of each line that is printed for these requests to a card of every kind: 2048 needs
/// a key and 204A does too, 204B is read-only, 30CD a ring, 4051 a purse written directly.
fn causes(requests: &[String]) -> String {
    let mut text = ["2048", "204A", "204B", "30CD", "4050", "4051"]
        .map(|code| format!("svc|1|{code}|2|0000"))
        .to_vec();
    text.insert(0, "card|0001|0000".to_string());
    text.push(format!("blk|4051|0|{}", purse(9, 2)));
    text.push(format!("blk|4051|1|{}", purse(u32::MAX, u32::MAX)));
    text.extend_from_slice(requests);
    let text: Vec<&str> = text.iter().map(String::as_str).collect();
    let column = |line: &str| line.rsplit('\t').next().unwrap_or("").to_string();
    lines(&text)
        .lines()
        .map(column)
        .collect::<Vec<_>>()
        .join(" ")
}

/// A5 has the first of its causes that holds, and nothing else has one.
#[test]
fn which_a5() {
    let nothing = "0".repeat(32);
    let write =
        |kind: &str, code: &str, list: &str, data: &str| format!("W|{kind}|{code}|1|{list}|{data}");
    let told = causes(&[
        "R|O|2048|1|8000".to_string(),
        write("O", "204A", "9000", &nothing),
        write("S", "204A", "9000", &nothing),
        write("O", "204B", "8000", &nothing),
        write("O", "30CD", "9001", &nothing),
        write("S", "4050", "9000", &purse(10, 3)),
        write("O", "30CD", "8001", &nothing),
        write("O", "4051", "8000", &purse(10, 3)),
        write("S", "4050", "8000", &purse(9, 3)),
        write("S", "4051", "8001", &purse(0, 1)),
        "W|O|30CD|3|800080008001|".to_string() + &"0".repeat(96),
    ]);
    assert_eq!(told, "1 1 2 2 3 3 4 5 6 7 4");
    let none = causes(&[
        "R|S|2048|1|8000".to_string(),
        "R|O|204B|1|8002".to_string(),
        "W|O|30CD|3|800080008000|".to_string() + &"1".repeat(96),
        write("O", "30CD", "8000", "00"),
        "W|O|30CD|1".to_string(),
        write("O", "4051", "8000", &purse(9, 2)),
    ]);
    assert_eq!(none, "- - - - - -");
}

/// Past the 254th element the cause is that of the first that fails, checks ahead of rules.
#[test]
fn which_a5_beyond() {
    let long = |passing: usize, last: &str, blocks: &[String]| {
        let count = passing + last.len() / 4;
        let list = "8000".repeat(passing) + last;
        let data = purse(9, 2).repeat(passing) + &blocks.concat();
        format!("W|S|40512048204A30CD|{count}|{list}|{data}")
    };
    let told = causes(&[
        long(254, "8000", &[purse(10, 0)]),
        long(300, "8000", &[purse(9, 3)]),
        long(300, "80008000", &[purse(9, 3), purse(10, 0)]),
        long(300, "80008001", &[purse(8, 1), purse(0, 1)]),
        long(300, "80008300", &[purse(9, 3), purse(0, 0)]),
        long(300, "80008200", &[purse(9, 3), purse(0, 0)]),
        long(300, "83008301", &[purse(0, 0), purse(0, 0)]),
    ]);
    assert_eq!(told, "5 6 6 7 6 2 4");
}

/// A line has 32,768 bytes at most, with or without an LF; a longer one whose first field is
/// `R`, `W` or `L` is a malformed request, any other a malformed line of the image.
#[test]
fn long_lines() {
    let image = "card\t0001\t0000\nsvc\t1\t1049\t2\t0000\n";
    let filled = |start: &str, length: usize| {
        let zeros = "0".repeat(length - start.len());
        format!("{start}{zeros}")
    };
    let text = |line: &str| replay(format!("{image}{line}").as_bytes());
    let write = "W\tO\t10491049\t1\t8000\t";
    assert_eq!(text(&filled(write, 32_768)), "1\t00\t00\t-\t-\t-\n");
    assert_eq!(text(&filled(write, 32_770)), "1\t!\t6\t-\t-\t-\n");
    let ended = filled(write, 32_768) + "\n" + &filled("R\t", 32_769) + "\n";
    assert_eq!(text(&ended), "1\t00\t00\t-\t-\t-\n2\t!\t6\t-\t-\t-\n");
    assert_eq!(text(&filled("L\t", 32_769)), "1\t!\t6\t-\t-\t-\n");
    assert_eq!(text(&filled("svc\t", 32_769)), "image\t3\t30\n");
    assert_eq!(text(&filled("RW", 32_769)), "image\t3\t30\n");
    assert_eq!(replay(filled("R\t", 32_769).as_bytes()), "image\t1\t30\n");
}

/// Blocks may be set between nodes; a set block leaves the node added last what it was.
#[test]
fn blocks_between_nodes() {
    let printed = after_card(&[
        "blk|2055|0|05000000000000000000000000000000",
        "lim|10|-10|0",
        "area|1|0100|01FF|0000",
        "W|O|2055|1|8000|0F000000000000000000000000000001",
        "W|O|2055|1|8000|01000000000000000000000000000002",
        "R|O|2055|1|8000",
    ]);
    let expected = "1|00|00|-|-|-\n2|01|03|1|-|-\n3|00|00|-|F6FFFFFF0F0000000000000000000001|-\n";
    assert_eq!(printed, expected.replace('|', "\t"));
}

/// Any bytes are answered, and every line that is printed has its shape.
#[test]
fn any_bytes() {
    let mut random = Random::new(5);
    let words = [
        "card\t0001\t0000\n",
        "R\tO\t",
        "W\tS\t",
        "L\t",
        "svc\t1\t",
        "1049\t",
        "\n",
        "\t",
        "-",
    ];
    for _ in 0..20_000 {
        let mut text = Vec::new();
        if !random.once_in(4) {
            text.extend(words[0].bytes());
        }
        for _ in 0..random.below(20) {
            match random.below(3) {
                0 => text.push(random.word() as u8),
                _ => text.extend(random.pick(&words).bytes()),
            }
        }
        for line in replay(&text).lines() {
            let fields = line.split('\t').count();
            let lane = line.starts_with(|first| ('1'..='8').contains(&first));
            assert!(fields == 6 || fields == 3 && (lane || line.starts_with("image\t")));
        }
    }
}
