//! Cards drawn for requests, and the blocks they hold.

use super::additions::{self, Habit, Stores};
use super::{codes, values};
use crate::felica_standard::emulator::doors::Block;
use crate::felica_standard::{ServiceCode, ServiceKind};
use crate::random::Random;
use crate::tree::{Addition, Card};

/// How the additions of a card for requests are drawn.
const HABIT: Habit = Habit {
    spoilt: 40,
    areas: 1,
    joins: 4,
    deep: false,
    stores: Stores::Few,
};

/// The additions of a card that joins, all of which it accepts with an arena of this many bytes. Every
/// third purse has a limit, at times in place of an earlier one.
pub fn additions(random: &mut Random, arena: usize) -> Vec<Addition> {
    let mut card = Card::new(0x0000, 0x0000, true);
    let mut additions = Vec::new();
    let tries = match random.below(30) {
        0 => 90,
        1 => 0,
        2..6 => random.below(8),
        _ => 8 + random.below(22),
    };
    for _ in 0..tries {
        let addition = additions::addition(random, &card, arena, HABIT);
        if card.add(arena, addition).is_err() {
            continue;
        }
        additions.push(addition);
        let mut limited = is_service(addition, ServiceKind::Purse) && random.once_in(3);
        while limited {
            let limit = Addition::Limit(values::limit(random));
            card.add(arena, limit).expect("a service takes a limit");
            additions.push(limit);
            limited = random.once_in(4);
        }
    }
    additions
}

/// The additions of a card with services of one kind alone, and at least one, if a kind is given.
pub fn additions_of(random: &mut Random, arena: usize, only: Option<ServiceKind>) -> Vec<Addition> {
    let Some(kind) = only else {
        return additions(random, arena);
    };
    loop {
        let mut drawn = additions(random, arena);
        // A limit goes or stays with the service before it.
        let mut last = false;
        drawn.retain(|&addition| match addition {
            Addition::Area { .. } => true,
            Addition::Service { .. } => {
                last = is_service(addition, kind);
                last
            }
            Addition::Limit(_) => last,
        });
        if drawn.iter().any(|&addition| is_service(addition, kind)) {
            return drawn;
        }
    }
}

/// Whether an addition is a service of this kind.
fn is_service(addition: Addition, kind: ServiceKind) -> bool {
    match addition {
        Addition::Service { code, .. } => ServiceCode::new(code).kind() == Some(kind),
        _ => false,
    }
}

/// A block of the card to be set and what it shall hold: code, number and bytes; none if the
/// service that was drawn has no block.
pub fn block(random: &mut Random, card: &Card) -> Option<(u16, u32, Block)> {
    let services = codes::services(card);
    let code = *services.get(random.below(services.len().max(1)))?;
    let count = card.store(code).filter(|&count| count > 0)?;
    let number = random.below(count as usize) as u32;
    Some((code, number, content(random, card, code)))
}

/// What a block of this service may hold: in a purse plain values, such as are at or beside a
/// boundary, or two whose sum is too large; else any bytes.
fn content(random: &mut Random, card: &Card, code: u16) -> Block {
    if ServiceCode::new(code).kind() != Some(ServiceKind::Purse) {
        return random.block();
    }
    let bounds = values::bounds(card.limit(code));
    let (purse, cashback) = match random.below(4) {
        0 => (random.below(5_000) as u32, random.below(200) as u32),
        1 => (values::value(random, bounds), random.below(200) as u32),
        2 => (!(random.word() >> 1), !(random.word() >> 1)),
        _ => (values::value(random, bounds), values::value(random, bounds)),
    };
    values::block(random, purse, cashback)
}
