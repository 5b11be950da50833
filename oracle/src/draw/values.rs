//! Values of purses, drawn around the points where an answer changes.

use crate::felica_standard::emulator::LimitPurseProperty;
use crate::felica_standard::emulator::doors::{Block, PurseStep};
use crate::random::Random;

/// The upper and the lower bound of a purse, as bits.
pub type Bounds = (u32, u32);

/// Bounds of limits as (upper, lower): wide, narrow, one value, ends of the range, lower above
/// upper.
const LIMITS: [(i32, i32); 16] = [
    (i32::MAX, 0),
    (200, -50),
    (0, 0),
    (1, -1),
    (100, 1),
    (-1, -100),
    (i32::MAX, i32::MIN),
    (-1, i32::MIN),
    (i32::MAX, i32::MAX),
    (i32::MIN, i32::MIN),
    (i32::MAX - 1, i32::MIN + 1),
    (1_000_000, -1_000_000),
    (0, 1),
    (-50, 200),
    (-1, i32::MAX),
    (i32::MIN, i32::MAX),
];

/// Values at the ends of 32 bits, signed and unsigned.
pub const EDGES: [u32; 12] = [
    0,
    1,
    2,
    100,
    0x7FFF_FFFE,
    0x7FFF_FFFF,
    0x8000_0000,
    0x8000_0001,
    0xFFFF_FF00,
    0xFFFF_FFFD,
    0xFFFF_FFFE,
    0xFFFF_FFFF,
];

/// A limit: one of the chosen bounds, or now and then any two.
pub fn limit(random: &mut Random) -> LimitPurseProperty {
    let (upper_limit, lower_limit) = if random.once_in(5) {
        (random.word() as i32, random.word() as i32)
    } else {
        random.pick(&LIMITS)
    };
    LimitPurseProperty {
        upper_limit,
        lower_limit,
        generation_number: random.below(256) as u8,
    }
}

/// The bounds of a limit, or of no limit, as bits.
pub fn bounds(limit: Option<LimitPurseProperty>) -> Bounds {
    match limit {
        Some(limit) => (limit.upper_limit as u32, limit.lower_limit as u32),
        None => (u32::MAX, 0),
    }
}

/// A value at a bound, at an edge, small, or anything.
pub fn value(random: &mut Random, (upper, lower): Bounds) -> u32 {
    match random.below(6) {
        0 => near(random, upper),
        1 => near(random, lower),
        2 | 3 => random.pick(&EDGES),
        4 => random.below(300) as u32,
        _ => random.word(),
    }
}

/// The value, one less or one more.
pub fn near(random: &mut Random, value: u32) -> u32 {
    value.wrapping_add(random.pick(&[u32::MAX, 0, 1]))
}

/// An amount for a step on a stored purse and cashback: one that takes the purse to a bound or
/// between, one beside or below what the step compares with, or any.
pub fn amount(
    random: &mut Random,
    step: PurseStep,
    bounds: Bounds,
    (purse, held): (u32, u32),
) -> u32 {
    let (upper, lower) = bounds;
    let between = lower.wrapping_add(upper.wrapping_sub(lower) / 2);
    let target = random.pick(&[upper, lower, between]);
    let (to_bound, compared) = match step {
        PurseStep::Direct => (target, purse),
        PurseStep::Decrement => (purse.wrapping_sub(target), purse),
        PurseStep::Cashback => (target.wrapping_sub(purse), held),
    };
    match random.below(4) {
        0 => near(random, to_bound),
        1 => near(random, compared),
        2 => compared.wrapping_sub(random.below(1_000) as u32),
        _ => value(random, bounds),
    }
}

/// The cashback of a direct write: beside the stored one, where the sum gets too large, or any.
pub fn cashback(random: &mut Random, bounds: Bounds, (purse, held): (u32, u32)) -> u32 {
    match random.below(5) {
        0 => near(random, held),
        1 => near(random, u32::MAX.wrapping_sub(purse)),
        2 | 3 => held.wrapping_sub(random.below(1_000) as u32),
        _ => value(random, bounds),
    }
}

/// A block with this purse and cashback; the other bytes are drawn.
pub fn block(random: &mut Random, purse: u32, cashback: u32) -> Block {
    let mut block = random.block();
    block[..4].copy_from_slice(&purse.to_le_bytes());
    block[4..8].copy_from_slice(&cashback.to_le_bytes());
    block
}

/// Four bytes from `at` on, low byte first, as a number.
pub fn read(block: &Block, at: usize, signed: bool) -> i64 {
    let bytes = [block[at], block[at + 1], block[at + 2], block[at + 3]];
    if signed {
        i64::from(i32::from_le_bytes(bytes))
    } else {
        i64::from(u32::from_le_bytes(bytes))
    }
}
