//! The lane board, which is ours and not the Rust's: what eight blocks say of a race's lanes.

use crate::felica_standard::emulator::doors::Block;
use crate::refusal::{self, Refusal};
use std::collections::BTreeSet;

/// A board has this many lanes, a block each, lane 1 first.
pub const LANES: u16 = 8;

/// A lane: its race and its crew, none if it is empty.
pub type Lane<'a> = Option<(u16, &'a str)>;

/// The lines of a board: lane, race and crew each.
pub fn board(blocks: &[Block]) -> Result<String, Refusal> {
    let lines = (1..)
        .zip(lanes(blocks)?)
        .map(|(lane, filled)| match filled {
            None => format!("{lane}\t-\t-\n"),
            Some((race, crew)) => format!("{lane}\t{race}\t{crew}\n"),
        });
    Ok(lines.collect())
}

/// The lanes of a board, or why there is none. A lane's own refusals come in lane order, and that of the
/// races after all of them.
pub fn lanes(blocks: &[Block]) -> Result<Vec<Lane<'_>>, Refusal> {
    let mut lanes = Vec::new();
    for (lane, block) in (1..).zip(blocks) {
        lanes.push(filled(lane, block)?);
    }
    let races: BTreeSet<u16> = lanes.iter().flatten().map(|(race, _)| *race).collect();
    if races.len() > 1 {
        return Err(refusal::RACES_DIFFER);
    }
    Ok(lanes)
}

/// The race and the crew of a lane, without the spaces that the crew ends with; none if the lane is
/// empty, which it is when every byte is zero.
fn filled(lane: u8, block: &Block) -> Result<Lane<'_>, Refusal> {
    if block.iter().all(|&byte| byte == 0) {
        return Ok(None);
    }
    let [own, low, high, crew @ .., last] = block;
    if *own != lane {
        return Err(refusal::WRONG_LANE);
    }
    if crew.iter().any(|byte| !(0x20..=0x7E).contains(byte)) {
        return Err(refusal::BAD_CREW);
    }
    if *last != 0 {
        return Err(refusal::TAIL_NOT_ZERO);
    }
    let crew = str::from_utf8(crew).expect("these bytes are ASCII");
    let race = u16::from(*low) + 256 * u16::from(*high);
    Ok(Some((race, crew.trim_end_matches(' '))))
}
