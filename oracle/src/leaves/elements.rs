//! List elements as bytes, the places of a bitmap, and the place of an error in a list.

use super::Leaf;
use crate::felica_standard::emulator::{EmulatedSystem, doors};
use crate::felica_standard::{BlockListElement, StatusFlag1};
use crate::hex::hex;
use crate::random::Random;

/// Block numbers at and beside each point where the packed form changes.
const NUMBERS: [u16; 20] = [
    0, 1, 2, 15, 16, 127, 128, 254, 255, 256, 257, 258, 511, 512, 0x7FFF, 0x8000, 0xFEFF, 0xFF00,
    0xFFFE, 0xFFFF,
];

/// List indexes, also such as do not fit four bits.
const INDEXES: [u8; 8] = [0, 1, 7, 8, 15, 16, 31, 255];

/// Access modes, also such as do not fit three bits.
const MODES: [u8; 8] = [0, 1, 3, 4, 7, 8, 15, 255];

/// How many elements are drawn beside the chosen ones.
const DRAWN: usize = 800;

/// The highest list index asked about.
const LAST_INDEX: usize = 300;

/// The P lines: `P number index mode bytes`.
pub fn packed(random: &mut Random) -> Vec<Leaf> {
    let mut leaves = Vec::new();
    for number in NUMBERS {
        for index in INDEXES {
            for mode in MODES {
                leaves.push(pack(number, index, mode));
            }
        }
    }
    for _ in 0..DRAWN {
        let number = match random.below(3) {
            0 => random.below(256),
            1 => 240 + random.below(32),
            _ => random.below(65_536),
        };
        leaves.push(pack(
            number as u16,
            random.below(256) as u8,
            random.below(256) as u8,
        ));
    }
    leaves
}

/// The line of one element.
fn pack(number: u16, index: u8, mode: u8) -> Leaf {
    let bytes = BlockListElement::new(number, index, mode).pack();
    let line = format!("P {number:04X} {index:02X} {mode:02X} {}", hex(&bytes));
    Leaf::new(line, format!("P {} bytes", bytes.len()))
}

/// The B lines: `B value count places`, the places filled up with zeros to fifteen.
pub fn places() -> Vec<Leaf> {
    (0..=255)
        .map(|value| {
            let mut places = StatusFlag1::ErrorAtListPosition(value).bitmap_positions();
            let count = places.len();
            places.resize(15, 0);
            let line = format!("B {value:02X} {count:02X} {}", hex(&places));
            Leaf::new(line, "B")
        })
        .collect()
}

/// The I lines: `I index place`, the place being SF1 of a read element at that index that
/// names the first of no codes.
pub fn positions() -> Vec<Leaf> {
    let system = EmulatedSystem::new(0, [0; 8], [0; 8]).expect("a root alone is a valid system");
    let element = BlockListElement::new(0, 0, 0);
    (0..=LAST_INDEX)
        .map(
            |index| match doors::read_element(&system, &[], index, &element, true) {
                Err((place, 0xA3)) => Leaf::new(format!("I {index:04X} {place:02X}"), "I"),
                told => panic!("an element without codes is A3, not {told:?}"),
            },
        )
        .collect()
}
