//! Texts about trees: images that are refused, each refusal in turn, after they grew for a while,
//! and images that grow large and are then looked at service by service.

use super::line::Line;
use super::spoil;
use crate::draw::additions::{self, Habit, Stores};
use crate::draw::{cards, codes};
use crate::felica_standard::emulator::doors::Block;
use crate::random::Random;
use crate::refusal::{self, Refusal};
use crate::replay::ARENA;
use crate::request::Request;
use crate::tree::{Card, MOST_NODES};

/// The refusals of image lines; 30 has the most causes.
const REFUSALS: [Refusal; 20] = [
    11, 12, 13, 14, 15, 16, 17, 18, 19, 20, 21, 22, 23, 28, 30, 30, 30, 30, 30, 30,
];

/// How additions are drawn before the one that is refused, and for it.
const HABIT: Habit = Habit {
    spoilt: 2,
    areas: 4,
    joins: 4,
    deep: false,
    stores: Stores::Any,
};

/// How the additions of a large tree are drawn, in turn: wide, deep, and all on one store.
const LARGE: [Habit; 3] = [
    HABIT,
    Habit {
        areas: 6,
        deep: true,
        ..HABIT
    },
    Habit {
        stores: Stores::OneLarge,
        ..HABIT
    },
];

/// After this many draws without what is looked for, the image ends.
const MOST_TRIES: usize = 600;

/// A text whose image meets the refusal of this turn, and goes on after it.
pub fn text(random: &mut Random, turn: usize) -> Vec<u8> {
    let wanted = REFUSALS[turn % REFUSALS.len()];
    let mut card = Card::new(random.word() as u16, random.word() as u16, true);
    let mut first = Line::card(card.rust().system_code(), card.key_version(0xFFFF));
    let spoilt = wanted == refusal::IMAGE_LINE && random.once_in(5);
    if spoilt {
        spoil::spoil(random, &mut first);
    }
    let mut text = first.bytes(random);
    let grown = match wanted {
        refusal::TABLE_FULL => MOST_NODES,
        _ => 1 + random.below(12),
    };
    for _ in 0..MOST_TRIES {
        if card.nodes().len() >= grown {
            break;
        }
        text.extend(accepted(random, &mut card, HABIT));
    }
    text.extend(refused(random, &mut card, wanted));
    text.extend(b"R\tO\t-\t0\t-\n");
    if spoilt {
        text
    } else {
        Line::joining(text, &card)
    }
}

/// A text whose image is of a card that does not join, and mostly ends with a service of another
/// count than its store.
pub fn counts(random: &mut Random) -> Vec<u8> {
    let mut card = Card::new(random.word() as u16, random.word() as u16, false);
    let first = Line::card(card.rust().system_code(), card.key_version(0xFFFF));
    let mut text = first.bytes(random);
    for _ in 0..1 + random.below(40) {
        text.extend(accepted(random, &mut card, HABIT));
    }
    if !random.once_in(4) {
        text.extend(refused(random, &mut card, refusal::COUNTS_DIFFER));
    }
    text.extend(b"R\tO\t-\t0\t-\n");
    text
}

/// A text whose image is accepted, and reads of each service's last block and of the one beyond.
pub fn grown(random: &mut Random) -> Vec<u8> {
    let mut card = Card::new(random.word() as u16, random.word() as u16, true);
    let first = Line::card(card.rust().system_code(), card.key_version(0xFFFF));
    let mut text = first.bytes(random);
    let habit = random.pick(&LARGE);
    for _ in 0..random.below(200) {
        text.extend(accepted(random, &mut card, habit));
    }
    let mut text = Line::joining(text, &card);
    for code in codes::services(&card) {
        let beyond = card.store(code).unwrap_or(0) as u16;
        for numbers in [[0, beyond.saturating_sub(1)], [0, beyond]] {
            let read = Request::read_of(code, numbers.into_iter());
            text.extend(Line::request(&read).bytes(random));
        }
    }
    text
}

/// The lines of an addition that the card accepts, and at times of a block; nothing if it
/// refuses what was drawn.
fn accepted(random: &mut Random, card: &mut Card, habit: Habit) -> Vec<u8> {
    let addition = additions::addition(random, card, ARENA, habit);
    if card.add(ARENA, addition).is_err() {
        return Vec::new();
    }
    let mut lines = Line::addition(addition).bytes(random);
    if random.once_in(5)
        && let Some(block) = cards::block(random, card)
    {
        lines.extend(Line::block(block).bytes(random));
    }
    lines
}

/// Lines of which the last is refused with this number, as far as one can be drawn.
fn refused(random: &mut Random, card: &mut Card, wanted: Refusal) -> Vec<u8> {
    if wanted == refusal::IMAGE_LINE {
        let mut line = good(random, card);
        spoil::spoil(random, &mut line);
        return line.bytes(random);
    }
    if wanted == refusal::NO_SUCH_BLOCK {
        return Line::block(no_block(random, card)).bytes(random);
    }
    let mut lines = Vec::new();
    for turn in 1..MOST_TRIES {
        let addition = additions::addition(random, card, ARENA, HABIT);
        if card.clone().add(ARENA, addition) == Err(wanted) {
            lines.extend(Line::addition(addition).bytes(random));
            break;
        }
        if turn % 10 == 0 {
            lines.extend(accepted(random, card, HABIT));
        }
    }
    lines
}

/// A block that the card does not have: of no service, or beyond its service's last.
fn no_block(random: &mut Random, card: &Card) -> (u16, u32, Block) {
    let (code, number) = match (random.below(4), cards::block(random, card)) {
        (0, Some((code, _, _))) => (code, card.store(code).unwrap_or(0)),
        (1, Some((code, _, _))) => (code, random.pick(&[4_096, 65_536, 65_537, u32::MAX])),
        (2, _) => (codes::no_service(random, card), 0),
        _ => (codes::unknown(random, card), 0),
    };
    (code, number, random.block())
}

/// A line that the card might accept, or another `card` line.
fn good(random: &mut Random, card: &Card) -> Line {
    match (random.below(6), cards::block(random, card)) {
        (0, _) => Line::card(0x0001, 0x0000),
        (1, Some(block)) => Line::block(block),
        _ => Line::addition(additions::addition(random, card, ARENA, HABIT)),
    }
}
