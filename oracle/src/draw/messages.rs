//! What is asked of code lists and block information, and the bytes that their readers are given.

use super::codes;
use crate::inspect::lists::{PACKET, block_information, code_list};
use crate::inspect::message;
use crate::random::Random;
use crate::replay::ARENA;
use crate::tree::Card;

/// A parent and a packet, mostly such as there are.
pub fn packet(random: &mut Random, card: &Card) -> (u16, u32) {
    let area = match random.below(8) {
        0 => codes::any(random, card),
        _ => random.pick(&codes::areas(card)),
    };
    let packet = match random.below(12) {
        0 => random.pick(&[4, 5, 15, 16, 17, 256, 4_096, 65_536, 1 << 28, u32::MAX]),
        1 => random.word(),
        2..5 => 1 + random.below(3) as u32,
        _ => 0,
    };
    (area, packet)
}

/// Nodes to be asked about, at times as many as may be, one more or none.
pub fn nodes(random: &mut Random, card: &Card) -> Vec<u16> {
    let count = random.pick(&[0, 1, 1, 2, 3, 5, 8, 31, 32, 33, 40]);
    (0..count).map(|_| codes::any(random, card)).collect()
}

/// The bytes of a code list of so many areas and services of any codes, more than may be too.
pub fn list_of(random: &mut Random, areas: usize, services: usize) -> Vec<u8> {
    let mut bytes = vec![random.below(2) as u8, areas as u8];
    bytes.extend((0..4 * areas).map(|_| random.word() as u8));
    bytes.push(services as u8);
    bytes.extend((0..2 * services).map(|_| random.word() as u8));
    bytes
}

/// The bytes of block information of so many nodes and any counts, more than may be too.
pub fn information_of(random: &mut Random, nodes: usize) -> Vec<u8> {
    let mut bytes = vec![nodes as u8];
    bytes.extend((0..4 * nodes).map(|_| random.word() as u8));
    bytes
}

/// The bytes of a code list of the card, or of any entries, changed every second time.
pub fn list(random: &mut Random, card: &Card) -> Vec<u8> {
    let (area, packet) = packet(random, card);
    let bytes = match code_list(card, area, packet) {
        Ok(list) if !random.once_in(3) => message::of_list(&list),
        _ => {
            let areas = random.below(PACKET + 2);
            let services = random.below(PACKET + 2 - areas.min(PACKET));
            list_of(random, areas, services)
        }
    };
    changed(random, bytes)
}

/// The bytes of block information of the card, or of any counts, changed every second time.
pub fn information(random: &mut Random, card: &Card) -> Vec<u8> {
    let nodes = nodes(random, card);
    let bytes = match block_information(card, ARENA, &nodes) {
        Ok(information) => message::of_information(&information),
        Err(_) => information_of(random, nodes.len()),
    };
    changed(random, bytes)
}

/// A message with a byte too few or too many, or another byte in it, every second time.
pub fn changed(random: &mut Random, mut bytes: Vec<u8>) -> Vec<u8> {
    let at = random.below(bytes.len());
    match random.below(10) {
        0 => {
            bytes.pop();
        }
        1 => bytes.push(random.word() as u8),
        2 => bytes[0] = random.pick(&[0, 1, 2, 3, 0x80, 0xFF]),
        3 => bytes[at] = bytes[at].wrapping_add(random.pick(&[1, 0xFF])),
        4 => bytes[at] ^= 1 << random.below(8),
        _ => {}
    }
    bytes
}
