//! Service codes: number, attribute, kind and rights.

use super::Leaf;
use crate::felica_standard::{ServiceAttribute, ServiceCode, ServiceKind};

/// The service numbers asked about, each with all 64 attributes.
const NUMBERS: [u16; 20] = [
    0x000, 0x001, 0x002, 0x004, 0x008, 0x010, 0x020, 0x040, 0x041, 0x080, 0x0FF, 0x100, 0x155,
    0x1FF, 0x200, 0x2AA, 0x37F, 0x3BF, 0x3FE, 0x3FF,
];

/// The A lines: `A code number attribute decoded kind key write cashback`.
pub fn attributes() -> Vec<Leaf> {
    let mut leaves = Vec::new();
    for number in NUMBERS {
        for attribute in 0..64 {
            leaves.push(one(ServiceCode::new(number << 6 | attribute)));
        }
    }
    leaves
}

/// The line of one code.
fn one(code: ServiceCode) -> Leaf {
    let attribute = code.attribute();
    let line = format!(
        "A {:04X} {:04X} {:02X} {:02X} {:02X} {:02X} {:02X} {:02X}",
        code.raw(),
        code.number(),
        code.attributes(),
        decoded(attribute),
        kind(code.kind()),
        u8::from(code.requires_key()),
        u8::from(attribute.is_some_and(ServiceAttribute::allows_write)),
        u8::from(attribute.is_some_and(ServiceAttribute::allows_cashback)),
    );
    let met = if attribute.is_some() {
        "defined"
    } else {
        "undefined"
    };
    Leaf::new(line, format!("A {met}"))
}

/// The attribute's place in the Rust's enum, from 1; 0 if undefined.
fn decoded(attribute: Option<ServiceAttribute>) -> u8 {
    attribute.map_or(0, |attribute| attribute as u8 + 1)
}

/// The kind's place in the Rust's enum, from 1 (random, cyclic, purse); 0 if undefined.
fn kind(kind: Option<ServiceKind>) -> u8 {
    kind.map_or(0, |kind| kind as u8 + 1)
}
