//! Malformed lines of every kind, the same for every seed: each field of each line in every wrong
//! form, a field too few or too many, and first fields that are nearly right. `|` stands for a tab.

/// A good line of an image, and a letter for the form of each field after the first.
const IMAGE: [(&str, &str); 5] = [
    ("card|0001|0000", "cc"),
    ("area|1|0100|01FF|0000", "dccc"),
    ("svc|1|2049|1|0000", "dcdc"),
    ("lim|9|-9|1", "ssg"),
    ("blk|1049|0|00112233445566778899AABBCCDDEEFF", "cdb"),
];

/// The same for requests.
const REQUESTS: [(&str, &str); 2] = [
    ("R|O|1049|1|8000", "kndh"),
    ("W|O|1049|1|8000|00112233445566778899AABBCCDDEEFF", "kndhh"),
];

/// What stands before a malformed line, its first line excepted where `card` itself is malformed.
const BEFORE: &str = "card|0001|0000\nsvc|1|1049|2|0000\n";

/// First fields that no line has.
const NAMES: [&str; 14] = [
    "", "-", "Card", "CARD", "card ", " card", "cards", "car", "r", "RW", "R ", " W", "R\r", "W\0",
];

/// What no field of this form may be: c a code, d a decimal, s a signed one, g a generation, r a room, a an
/// arena, b a block, k the kind of a request, n codes, h bytes.
fn wrong(form: char) -> &'static [&'static str] {
    match form {
        'c' => &[
            "", "-", "104", "10490", "104G", "g049", "10:9", "1/49", " 049", "104\r",
        ],
        'd' => &[
            "",
            "-",
            "00",
            "01",
            "-0",
            "-1",
            "+1",
            "1 ",
            " 1",
            "1a",
            "1.0",
            ":",
            "4294967296",
            "18446744073709551617",
        ],
        's' => &[
            "",
            "-",
            "00",
            "01",
            "-0",
            "-01",
            "+1",
            "--1",
            "1-",
            "2147483648",
            "-2147483649",
            "18446744073709551617",
        ],
        'g' => &["", "-", "00", "-1", "256", "257", "4294967297"],
        'r' => &[
            "",
            "-",
            "00",
            "-1",
            "+1",
            "1 ",
            "4097",
            "65536",
            "4294967297",
        ],
        'a' => &["", "-", "00", "-1", "+1", "1 ", "65537", "4294967296"],
        'b' => &[
            "",
            "-",
            "00112233445566778899AABBCCDDEEF",
            "00112233445566778899AABBCCDDEE",
            "00112233445566778899AABBCCDDEEFF0",
            "00112233445566778899AABBCCDDEEFF00",
            "00112233445566778899AABBCCDDEEFG",
        ],
        'k' => &["", "-", "o", "s", "X", "OS", "O ", " S", "O\r"],
        'n' => &[
            "", "--", "104", "10491", "104910", "104G", "1049-", "1049 ", "\0\0\0\0",
        ],
        'h' => &[
            "", "--", "8", "800", "80G0", "80 0", "8000-", "8000\r", "@@",
        ],
        _ => unreachable!("no form has this letter"),
    }
}

/// The malformed lines that are made of a good one; where it has one field alone, the line itself too.
pub fn spoilt((line, forms): (&str, &str)) -> Vec<String> {
    let fields: Vec<&str> = line.split('|').collect();
    let mut lines = Vec::new();
    for (at, form) in (1..).zip(forms.chars()) {
        for value in wrong(form) {
            let mut fields = fields.clone();
            fields[at] = value;
            lines.push(fields.join("|"));
        }
        let mut fewer = fields.clone();
        fewer.remove(at);
        lines.push(fewer.join("|"));
    }
    lines.push(fields[0].to_string());
    lines.push(format!("{line}|"));
    lines.push(format!("{line}|0000"));
    lines.push(line.replacen('|', " ", 1));
    lines.push(line.replace('|', " "));
    lines
}

/// The text of malformed refreshes, which comes later in the list than the others.
pub fn refreshes() -> Vec<u8> {
    let good = REQUESTS[0].0.to_string();
    let two_codes = "L|10491049".to_string();
    let lines = [vec![good], spoilt(("L|1049", "c")), vec![two_codes]].concat();
    format!("{BEFORE}{}\n", lines.join("\n"))
        .replace('|', "\t")
        .into_bytes()
}

/// The texts: one for each malformed line of an image, which ends the run, one each for those of
/// reads and of writes, and one for each wrong first field in an image.
pub fn texts() -> Vec<Vec<u8>> {
    let mut texts = Vec::new();
    for line in IMAGE.into_iter().flat_map(spoilt) {
        let before = if line.starts_with("card") { "" } else { BEFORE };
        texts.push(format!("{before}{line}\nR|O|1049|1|8000\n"));
    }
    for name in NAMES {
        texts.push(format!("{BEFORE}{name}|O|1049|1|8000\nR|O|1049|1|8000\n"));
    }
    for good in REQUESTS {
        // A request first, so that a line that is none any more is refused with 6 as well.
        let lines = [vec![good.0.to_string()], spoilt(good)].concat();
        texts.push(format!("{BEFORE}{}\n", lines.join("\n")));
    }
    let bytes = |text: String| text.replace('|', "\t").into_bytes();
    texts.into_iter().map(bytes).collect()
}
