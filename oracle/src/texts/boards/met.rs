//! What refreshes meet, for the counts: by the blocks as they stand at the line, not by what is printed.

use crate::board::{self, LANES};
use crate::draw::lanes::Lanes;
use crate::felica_standard::emulator::doors::{self, Block};
use crate::felica_standard::{ServiceCode, ServiceKind};
use crate::refusal;
use crate::replay::line::MOST_BYTES;
use crate::tree::Card;
use std::collections::BTreeMap;

/// All that refreshes can meet.
pub const ALL: &[&str] = &[
    "first request",
    "too long",
    "no field",
    "three fields or more",
    "empty code",
    "`-`",
    "two codes",
    "three digits",
    "five digits",
    "no hex",
    "small letters",
    "the system",
    "an area",
    "no defined service",
    "unknown service",
    "random store",
    "cyclic store",
    "purse store",
    "keyed service",
    "read-only service",
    "joined service",
    "no blocks",
    "fewer than eight blocks",
    "fewer than eight blocks, ahead of 41",
    "more than eight blocks",
    "sound",
    "sound, eight empty lanes",
    "sound, eight filled lanes",
    "sound, lane 1 empty",
    "sound, an empty lane between",
    "crew of twelve bytes",
    "crew with a space behind",
    "crew with a space ahead",
    "crew with a space between",
    "crew of spaces",
    "crew of `-`",
    "race 0",
    "race over 255",
    "41",
    "42",
    "43",
    "40",
    "41, only byte 15 set",
    "41, byte 0 zero",
    "42, crew byte 1F",
    "42, crew byte 7F",
    "42, crew byte 00",
    "41 ahead of 42 of its lane",
    "41 ahead of 43 of its lane",
    "42 ahead of 43 of its lane",
    "42 ahead of 41 of a later lane",
    "43 ahead of 41 of a later lane",
    "43 ahead of 42 of a later lane",
    "40 after an empty lane",
    "40 by the last lane",
    "41 ahead of 40",
    "42 ahead of 40",
    "43 ahead of 40",
    "the same again",
    "redrawn since the last refresh",
    "mended since the last refresh",
];

/// What the refreshes of one text met.
#[derive(Default)]
pub struct Met {
    pub names: Vec<&'static str>,
    lines: usize,
    /// What the last refresh of each store has met.
    last: BTreeMap<u16, Lanes>,
}

impl Met {
    /// Takes a line after the image, with the card that it meets.
    pub fn watch(&mut self, card: &Card, line: &[u8]) {
        self.lines += 1;
        let fields: Vec<&[u8]> = line.split(|&byte| byte == b'\t').collect();
        if fields[0] != b"L" {
            return;
        }
        if self.lines == 1 {
            self.names.push("first request");
        }
        match malformed(line, &fields) {
            Some(name) => self.names.push(name),
            None => self.refresh(card, fields[1]),
        }
    }

    /// Takes a well formed refresh.
    fn refresh(&mut self, card: &Card, field: &[u8]) {
        if field.iter().any(u8::is_ascii_lowercase) {
            self.names.push("small letters");
        }
        let digits = str::from_utf8(field).expect("hex digits");
        let code = u16::from_str_radix(digits, 16).expect("four of them");
        match doors::store_of(card.rust(), code) {
            None => self.names.push(no_service(card, code)),
            Some(store) => {
                self.names.extend(service(card, code));
                self.store(code, &store);
            }
        }
    }

    /// Takes a refresh of a store.
    fn store(&mut self, code: u16, store: &[Block]) {
        let Some(lanes) = store.first_chunk::<{ LANES as usize }>() else {
            self.names.push(match store.len() {
                0 => "no blocks",
                _ => "fewer than eight blocks",
            });
            if board::board(store) == Err(refusal::WRONG_LANE) {
                self.names.push("fewer than eight blocks, ahead of 41");
            }
            return;
        };
        if store.len() > lanes.len() {
            self.names.push("more than eight blocks");
        }
        let before = self.last.insert(code >> 6, *lanes);
        let sound = |lanes: &Lanes| board::board(lanes).is_ok();
        match before {
            Some(before) if before == *lanes => self.names.push("the same again"),
            Some(before) if sound(&before) => self.names.push("redrawn since the last refresh"),
            Some(_) if sound(lanes) => self.names.push("mended since the last refresh"),
            _ => {}
        }
        if sound(lanes) {
            self.names.extend(shown(lanes));
        } else {
            self.names.extend(refused(lanes));
        }
    }
}

/// What is malformed about a refresh, if anything.
fn malformed(line: &[u8], fields: &[&[u8]]) -> Option<&'static str> {
    let code = match fields {
        _ if line.len() > MOST_BYTES => return Some("too long"),
        [_] => return Some("no field"),
        [_, code] => *code,
        _ => return Some("three fields or more"),
    };
    match (code.len(), code.iter().all(u8::is_ascii_hexdigit)) {
        (0, _) => Some("empty code"),
        (4, true) => None,
        (3, true) => Some("three digits"),
        (5, true) => Some("five digits"),
        (8, true) => Some("two codes"),
        _ if code == b"-" => Some("`-`"),
        _ => Some("no hex"),
    }
}

/// What a code is that no service of the card has.
fn no_service(card: &Card, code: u16) -> &'static str {
    if code == 0xFFFF {
        "the system"
    } else if ServiceCode::new(code).attribute().is_some() {
        "unknown service"
    } else if card.nodes().iter().any(|node| node.code == code) {
        "an area"
    } else {
        "no defined service"
    }
}

/// What a service of the card is.
fn service(card: &Card, code: u16) -> Vec<&'static str> {
    let service = ServiceCode::new(code);
    let attribute = service.attribute().expect("the card has it");
    let mut names = vec![match attribute.kind() {
        ServiceKind::Random => "random store",
        ServiceKind::Cyclic => "cyclic store",
        ServiceKind::Purse => "purse store",
    }];
    if service.requires_key() {
        names.push("keyed service");
    }
    if !attribute.allows_write() {
        names.push("read-only service");
    }
    let mut nodes = card.nodes().iter();
    if nodes.any(|node| node.code != code && node.code & 0x3F > 1 && node.code >> 6 == code >> 6) {
        names.push("joined service");
    }
    names
}

/// What a board shows.
fn shown(lanes: &Lanes) -> Vec<&'static str> {
    let is_empty = |block: &Block| *block == Block::default();
    let filled: Vec<&Block> = lanes.iter().filter(|block| !is_empty(block)).collect();
    let mut names = vec!["sound"];
    let mut meet = |name: &'static str, met: bool| names.extend(met.then_some(name));
    meet("sound, eight empty lanes", filled.is_empty());
    meet("sound, eight filled lanes", filled.len() == lanes.len());
    meet(
        "sound, lane 1 empty",
        is_empty(&lanes[0]) && !filled.is_empty(),
    );
    let shape: Vec<bool> = lanes.iter().map(is_empty).collect();
    let between = shape
        .split(|empty| *empty)
        .filter(|part| !part.is_empty())
        .count()
        > 1;
    meet("sound, an empty lane between", between);
    for block in filled {
        let crew = str::from_utf8(&block[3..15]).expect("a crew's bytes");
        let inner = crew.trim_matches(' ');
        meet("crew of twelve bytes", !crew.ends_with(' '));
        meet(
            "crew with a space behind",
            crew.ends_with(' ') && !inner.is_empty(),
        );
        meet(
            "crew with a space ahead",
            crew.starts_with(' ') && !inner.is_empty(),
        );
        meet("crew with a space between", inner.contains(' '));
        meet("crew of spaces", inner.is_empty());
        meet("crew of `-`", crew.trim_end() == "-");
        meet("race 0", block[1..3] == [0, 0]);
        meet("race over 255", block[2] > 0);
    }
    names
}

/// The lane's own refusals that a block would meet, one after the other.
fn faults(lane: usize, block: &Block) -> Vec<&'static str> {
    if *block == Block::default() {
        return Vec::new();
    }
    let bad = |byte: &u8| *byte < 0x20 || *byte > 0x7E;
    let tests = [
        ("41", usize::from(block[0]) != lane),
        ("42", block[3..15].iter().any(bad)),
        ("43", block[15] != 0),
    ];
    let met = tests.into_iter().filter(|(_, met)| *met);
    met.map(|(name, _)| name).collect()
}

/// Why there is no board, and what else is wrong behind it.
fn refused(lanes: &Lanes) -> Vec<&'static str> {
    let all: Vec<Vec<&str>> = (1..)
        .zip(lanes)
        .map(|(lane, block)| faults(lane, block))
        .collect();
    let races: Vec<&[u8]> = (lanes.iter().filter(|block| **block != Block::default()))
        .map(|block| &block[1..3])
        .collect();
    let differ = races.windows(2).any(|two| two[0] != two[1]);
    let Some(place) = all.iter().position(|faults| !faults.is_empty()) else {
        return differing(lanes, &races);
    };
    let (first, later) = (&all[place], all[place + 1..].concat());
    let block = &lanes[place];
    let mut names = vec![first[0]];
    let mut meet = |name: &'static str, met: bool| names.extend(met.then_some(name));
    let is = |number: &str| first[0] == number;
    meet("41, only byte 15 set", block[..15] == [0; 15]);
    meet("41, byte 0 zero", block[0] == 0);
    meet("42, crew byte 1F", is("42") && block[3..15].contains(&0x1F));
    meet("42, crew byte 7F", is("42") && block[3..15].contains(&0x7F));
    meet("42, crew byte 00", is("42") && block[3..15].contains(&0x00));
    meet(
        "41 ahead of 42 of its lane",
        is("41") && first.contains(&"42"),
    );
    meet(
        "41 ahead of 43 of its lane",
        is("41") && first.contains(&"43"),
    );
    meet(
        "42 ahead of 43 of its lane",
        is("42") && first.contains(&"43"),
    );
    meet(
        "42 ahead of 41 of a later lane",
        is("42") && later.contains(&"41"),
    );
    meet(
        "43 ahead of 41 of a later lane",
        is("43") && later.contains(&"41"),
    );
    meet(
        "43 ahead of 42 of a later lane",
        is("43") && later.contains(&"42"),
    );
    meet("41 ahead of 40", is("41") && differ);
    meet("42 ahead of 40", is("42") && differ);
    meet("43 ahead of 40", is("43") && differ);
    names
}

/// How the races of lanes differ that have no other fault.
fn differing(lanes: &Lanes, races: &[&[u8]]) -> Vec<&'static str> {
    let mut names = vec!["40"];
    if lanes[0] == Block::default() {
        names.push("40 after an empty lane");
    }
    if races[..races.len() - 1]
        .windows(2)
        .all(|two| two[0] == two[1])
    {
        names.push("40 by the last lane");
    }
    names
}
