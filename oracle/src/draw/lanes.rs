//! The eight lanes of a race, drawn: blocks of which a board can be made, and blocks of which none can.

use crate::board::LANES;
use crate::felica_standard::emulator::doors::Block;
use crate::random::Random;

/// The blocks of eight lanes, lane 1 first.
pub type Lanes = [Block; LANES as usize];

/// Crews, with spaces in every place and some at the ends of what a crew may have.
const CREWS: [&str; 14] = [
    "LEANDER",
    "THAMES",
    "MOLESEY M4+",
    "TWELVE BYTES",
    "A",
    "",
    " ",
    "-",
    "!",
    "  LED BY TWO",
    " A  B   C ",
    "~",
    "~~~~~~~~~~~~",
    "           ~",
];

/// Races at the ends of their bytes.
const RACES: [u16; 7] = [0, 1, 7, 255, 256, 257, 65_535];

/// Bytes that no crew has, beside those it may have first.
const NO_CREW: [u8; 8] = [0x1F, 0x7F, 0x00, 0x09, 0x0A, 0x80, 0xA0, 0xFF];

/// A block: the lane's byte, the race, the crew filled up with spaces, and byte 15.
pub fn block(lane: u8, race: u16, crew: &str, last: u8) -> Block {
    let mut block = [b' '; 16];
    block[0] = lane;
    block[1..3].copy_from_slice(&race.to_le_bytes());
    block[3..][..crew.len()].copy_from_slice(crew.as_bytes());
    block[15] = last;
    block
}

/// A race's number.
pub fn race(random: &mut Random) -> u16 {
    match random.below(3) {
        0 => random.pick(&RACES),
        1 => random.word() as u16,
        _ => 1 + random.below(30) as u16,
    }
}

/// A filled lane of a race, by its place from 0 on.
pub fn lane(random: &mut Random, place: usize, race: u16) -> Block {
    let mut block = block(place as u8 + 1, race, random.pick(&CREWS), 0);
    if random.once_in(3) {
        let length = random.below(13);
        for byte in &mut block[3..3 + length] {
            *byte = 0x20 + random.below(0x5F) as u8;
        }
    }
    block
}

/// The lanes of one race: all, none, or some of them filled.
pub fn lanes(random: &mut Random) -> Lanes {
    let race = race(random);
    let filled = random.pick(&[0, 1, 2, 4, 4, 6, 8]);
    let mut lanes = Lanes::default();
    for (place, block) in lanes.iter_mut().enumerate() {
        if random.below(8) < filled {
            *block = lane(random, place, race);
        }
    }
    lanes
}

/// Spoils lanes in one way or in several, often one lane in two.
pub fn spoil(random: &mut Random, lanes: &mut Lanes) {
    let mut place = random.below(lanes.len());
    spoil_one(random, lanes, place);
    while random.once_in(3) {
        if random.once_in(2) {
            place = random.below(lanes.len());
        }
        spoil_one(random, lanes, place);
    }
}

/// Spoils a lane in one way; one that was empty is filled first, for most of them.
fn spoil_one(random: &mut Random, lanes: &mut Lanes, place: usize) {
    let race = match lanes.iter().find(|block| **block != Block::default()) {
        Some(block) => u16::from_le_bytes([block[1], block[2]]),
        None => race(random),
    };
    let how = random.below(20);
    if lanes[place] == Block::default() && how < 17 {
        lanes[place] = lane(random, place, race);
    }
    let block = &mut lanes[place];
    match how {
        0..2 => block[0] = random.pick(&[0, 1, 2, 8, 9, 0x31, place as u8, place as u8 + 2, 0xFF]),
        2..5 => block[random.pick(&[3, 4, 8, 13, 14])] = random.pick(&NO_CREW),
        5..10 => block[15] = random.pick(&[1, 0x20, 0x80, 0xFF]),
        10..16 => {
            block[1 + random.below(2)] ^= 1 << random.below(8);
            let other = (place + 1 + random.below(7)) % lanes.len();
            if lanes[other] == Block::default() {
                lanes[other] = lane(random, other, race);
            }
        }
        16 => lanes.swap(place, random.below(LANES as usize)),
        17 => *block = only(15, random.pick(&[1, 0xFF])),
        18 => *block = only(random.below(16), random.pick(&[1, place as u8 + 1, 0x20])),
        _ => *block = random.block(),
    }
}

/// A block of zeros but for one byte.
pub fn only(at: usize, byte: u8) -> Block {
    let mut block = Block::default();
    block[at] = byte;
    block
}
