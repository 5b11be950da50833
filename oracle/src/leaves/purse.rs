//! Purse writes: direct, decrement and cashback, with and without a limit.
//!
//! Values are drawn around every boundary: the ends of 32 bits signed and unsigned, each bound
//! of the limit, the stored purse and cashback, and the amounts that just reach a bound.

use super::Leaf;
use crate::cause;
use crate::draw::values::{self, EDGES};
use crate::felica_standard::emulator::LimitPurseProperty;
use crate::felica_standard::emulator::doors::{Block, PurseStep, purse_write};
use crate::hex::hex;
use crate::random::Random;

const STEPS: [PurseStep; 3] = [PurseStep::Direct, PurseStep::Decrement, PurseStep::Cashback];

/// How many questions are drawn for each step without a limit, and as many with one.
const DRAWN: usize = 2_600;

/// A question: what is asked of `purse_write`.
struct Question {
    step: PurseStep,
    limit: Option<LimitPurseProperty>,
    stored: Block,
    command: Block,
}

/// The U lines: `U op limit upper lower stored command sf2 after`.
pub fn writes(random: &mut Random) -> Vec<Leaf> {
    let mut leaves = Vec::new();
    for step in STEPS {
        for purse in EDGES {
            for amount in EDGES {
                leaves.push(one(&edge(random, step, None, purse, amount)));
                let limit = Some(values::limit(random));
                leaves.push(one(&edge(random, step, limit, purse, amount)));
            }
        }
        for _ in 0..DRAWN {
            leaves.push(one(&aimed(random, step, None)));
            let limit = Some(values::limit(random));
            leaves.push(one(&aimed(random, step, limit)));
        }
    }
    leaves
}

/// A question with a given stored purse and amount, all else at edges.
fn edge(
    random: &mut Random,
    step: PurseStep,
    limit: Option<LimitPurseProperty>,
    purse: u32,
    amount: u32,
) -> Question {
    let held = random.pick(&EDGES);
    let given = random.pick(&EDGES);
    question(random, step, limit, (purse, held), (amount, given))
}

/// A question whose amounts are aimed at a boundary of its own.
fn aimed(random: &mut Random, step: PurseStep, limit: Option<LimitPurseProperty>) -> Question {
    let bounds = values::bounds(limit);
    let purse = values::value(random, bounds);
    let held = values::value(random, bounds);
    let amount = values::amount(random, step, bounds, (purse, held));
    // Now and then what is stored is just enough for the amount, so that later tests are met.
    let (purse, held) = match step {
        PurseStep::Direct if random.once_in(3) => {
            (values::near(random, amount.wrapping_add(1)), held)
        }
        PurseStep::Cashback if random.once_in(4) => (purse, values::near(random, amount)),
        _ => (purse, held),
    };
    let given = values::cashback(random, bounds, (purse, held));
    question(random, step, limit, (purse, held), (amount, given))
}

/// The two blocks of a question: purse and cashback given, the rest drawn. The execution ids
/// are equal, one bit apart, or unrelated.
fn question(
    random: &mut Random,
    step: PurseStep,
    limit: Option<LimitPurseProperty>,
    (purse, held): (u32, u32),
    (amount, given): (u32, u32),
) -> Question {
    let stored = values::block(random, purse, held);
    let mut command = values::block(random, amount, given);
    let ids = random.below(8);
    if ids < 3 {
        command[12..].copy_from_slice(&stored[12..]);
    }
    if ids == 2 {
        command[12 + random.below(4)] ^= 1 << random.below(8);
    }
    Question {
        step,
        limit,
        stored,
        command,
    }
}

/// The line of one question.
fn one(question: &Question) -> Leaf {
    let told = purse_write(
        &question.stored,
        &question.command,
        question.step,
        question.limit,
    );
    let (sf2, after) = match told {
        Ok(after) => (0, after.unwrap_or(question.stored)),
        Err(sf2) => (sf2, question.stored),
    };
    let (upper, lower) = match question.limit {
        Some(limit) => (limit.upper_limit, limit.lower_limit),
        None => (0, 0),
    };
    let line = format!(
        "U {:02X} {:02X} {upper:08X} {lower:08X} {} {} {sf2:02X} {}",
        question.step as u8,
        u8::from(question.limit.is_some()),
        hex(&question.stored),
        hex(&question.command),
        hex(&after),
    );
    let limit = if question.limit.is_some() {
        "limit"
    } else {
        "no limit"
    };
    let met = format!(
        "U {:?}, {limit}: {}",
        question.step,
        outcome(question, told)
    );
    Leaf::new(line, met)
}

/// The name of an outcome, for the counts only. The two sides of the range answer alike, so which
/// one it was is worked out from the question.
fn outcome(question: &Question, told: Result<Option<Block>, u8>) -> String {
    let signed = question.limit.is_some();
    let stored = |at| values::read(&question.stored, at, signed);
    let given = |at| values::read(&question.command, at, signed);
    match told {
        Ok(Some(_)) => "stored".to_string(),
        Ok(None) => "unchanged".to_string(),
        Err(0xA5) => {
            let cause = cause::of_direct(&question.stored, &question.command, signed);
            format!("A5 {}", cause.name())
        }
        Err(0x02) => "02".to_string(),
        Err(sf2) => {
            let floor = question.limit.map_or(0, |limit| limit.lower_limit.into());
            let result = match question.step {
                PurseStep::Direct => given(0),
                PurseStep::Decrement => stored(0) - given(0),
                PurseStep::Cashback => stored(0) + given(0),
            };
            let side = if result < floor { "below" } else { "above" };
            format!("{sf2:02X} {side}")
        }
    }
}
