//! Codes of nodes and lists of codes, drawn for a card.

use crate::felica_standard::ServiceCode;
use crate::random::Random;
use crate::tree::{Card, Entry};

/// The defined attributes of each kind: random, cyclic, purse.
const KINDS: [&[u16]; 3] = [
    &[0x08, 0x09, 0x0A, 0x0B],
    &[0x0C, 0x0D, 0x0E, 0x0F],
    &[0x10, 0x11, 0x12, 0x13, 0x14, 0x15, 0x16, 0x17],
];

/// The codes of a card's services in tree order, repeated ones too.
pub fn services(card: &Card) -> Vec<u16> {
    let nodes = card.nodes().iter();
    nodes
        .filter(|node| matches!(node.entry, Entry::Service { .. }))
        .map(|node| node.code)
        .collect()
}

/// The codes of a card's areas in tree order, the root's first.
pub fn areas(card: &Card) -> Vec<u16> {
    let nodes = card.nodes().iter();
    nodes
        .filter(|node| matches!(node.entry, Entry::Area { .. }))
        .map(|node| node.code)
        .collect()
}

/// A service code of this number with any defined attribute.
pub fn defined(random: &mut Random, number: u16) -> u16 {
    let kind = random.pick(&KINDS);
    number << 6 | random.pick(kind)
}

/// A service code of the same number and kind.
pub fn joining(random: &mut Random, code: u16) -> u16 {
    let kind = KINDS.iter().find(|kind| kind.contains(&(code & 0x3F)));
    let kind = kind.expect("a card's service has a defined attribute");
    (code & 0xFFC0) | random.pick(kind)
}

/// A service code of the number of one of the card's services and any kind; the given code if
/// the card has none.
pub fn of_other_kind(random: &mut Random, card: &Card, code: u16) -> u16 {
    match services(card).as_slice() {
        [] => code,
        known => {
            let one = random.pick(known);
            defined(random, one >> 6)
        }
    }
}

/// The code of a node, or one beside it, the system's, or any.
pub fn any(random: &mut Random, card: &Card) -> u16 {
    let node = card.nodes()[random.below(card.nodes().len())].code;
    match random.below(10) {
        0 => 0xFFFF,
        1 => node ^ 1,
        2 => random.word() as u16,
        _ => node,
    }
}

/// A code that no service can have: an area's, the system's, or one of an undefined attribute.
pub fn no_service(random: &mut Random, card: &Card) -> u16 {
    match random.below(3) {
        0 => 0xFFFF,
        1 => random.pick(&areas(card)),
        _ => (any(random, card) & 0xFFC0) | random.pick(&[0x00, 0x01, 0x07, 0x18, 0x19, 0x3F]),
    }
}

/// A service code with a defined attribute that the card does not have.
pub fn unknown(random: &mut Random, card: &Card) -> u16 {
    let services = services(card);
    loop {
        let near = any(random, card) >> 6;
        let code = defined(random, near);
        if !services.contains(&code) {
            return code;
        }
    }
}

/// A list for the area check: mostly areas, now and then the system or something else.
pub fn area_list(random: &mut Random, card: &Card) -> Vec<u16> {
    let areas = areas(card);
    let length = random.pick(&[0, 1, 1, 2, 2, 3, 4, 8]);
    (0..length)
        .map(|_| match random.below(12) {
            0 => any(random, card),
            1 => 0xFFFF,
            _ => random.pick(&areas),
        })
        .collect()
}

/// A list for the service check: mostly services, keyed ones first, now and then areas, the
/// system or something else, or in any order.
pub fn service_list(random: &mut Random, card: &Card) -> Vec<u16> {
    let services = services(card);
    let areas = areas(card);
    let length = random.pick(&[0, 1, 1, 2, 3, 4, 5, 8]);
    let mut list: Vec<u16> = (0..length)
        .map(|_| match random.below(14) {
            0 => any(random, card),
            1 => 0xFFFF,
            2 => random.pick(&areas),
            _ if services.is_empty() => random.pick(&areas),
            _ => random.pick(&services),
        })
        .collect();
    if !random.once_in(3) {
        list.sort_by_key(|&code| ServiceCode::new(code).is_key_free_service());
    }
    list
}
