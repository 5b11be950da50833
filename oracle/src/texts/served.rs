//! Texts with an image that is accepted and requests on it.

use super::line::Line;
use super::spoil;
use crate::draw::{cards, requests};
use crate::felica_standard::ServiceKind;
use crate::random::Random;
use crate::replay::ARENA;
use crate::request;
use crate::tree::Card;

/// What a text is mostly about.
#[derive(Clone, Copy)]
pub struct Taste {
    /// The only kind of service on the card, if there is one.
    only: Option<ServiceKind>,
    /// Whether every request has an element that may fail.
    failing: bool,
    /// One line after the image in this many is spoilt.
    spoilt: usize,
    /// After a line, once in this many times, stands one that is no request.
    stray: usize,
}

impl Taste {
    /// A bit of everything.
    pub const MIXED: Taste = Taste {
        only: None,
        failing: false,
        spoilt: 12,
        stray: 30,
    };
    pub const CHECKS: Taste = Taste {
        failing: true,
        spoilt: 40,
        ..Taste::MIXED
    };
    pub const PURSE: Taste = Taste {
        only: Some(ServiceKind::Purse),
        spoilt: 40,
        ..Taste::MIXED
    };
    pub const CYCLIC: Taste = Taste {
        only: Some(ServiceKind::Cyclic),
        ..Taste::PURSE
    };
    pub const MALFORMED: Taste = Taste {
        spoilt: 2,
        stray: 4,
        ..Taste::MIXED
    };
}

/// A text with about this many lines after its image.
pub fn text(random: &mut Random, taste: Taste, lines: usize) -> Vec<u8> {
    let (mut card, mut text) = image(random, taste.only);
    for at in 0..lines {
        let request = if taste.failing {
            requests::failing(random, &card)
        } else {
            requests::request(random, &card)
        };
        let mut line = Line::request(&request);
        if random.once_in(taste.spoilt) {
            spoil::spoil(random, &mut line);
        } else {
            // The card goes along, so that later requests are drawn for what it then holds.
            let _ = request::serve(&mut card, ARENA, ARENA, &request);
        }
        text.extend(line.bytes(random));
        if at > 0 && random.once_in(taste.stray) {
            text.extend(stray(random, &card));
        }
    }
    text
}

/// A card and the lines of its image, with `join` where it has to join, and with services of one kind alone
/// if one is given.
pub fn image(random: &mut Random, only: Option<ServiceKind>) -> (Card, Vec<u8>) {
    let mut card = Card::new(random.word() as u16, random.word() as u16, true);
    let first = Line::card(card.rust().system_code(), card.key_version(0xFFFF));
    let mut text = first.bytes(random);
    for addition in cards::additions_of(random, ARENA, only) {
        card.add(ARENA, addition)
            .expect("a card accepts what was drawn for it");
        text.extend(Line::addition(addition).bytes(random));
        for _ in 0..random.below(3) {
            text.extend(set(random, &mut card));
        }
    }
    let text = Line::joining(text, &card);
    (card, text)
}

/// The line that sets a block of the card, if one was drawn.
fn set(random: &mut Random, card: &mut Card) -> Vec<u8> {
    let Some(block) = cards::block(random, card) else {
        return Vec::new();
    };
    let (code, number, content) = block;
    card.set_block(code, number, content)
        .expect("a block of the card was drawn");
    Line::block(block).bytes(random)
}

/// A line that is no request: empty, of an image, or of any bytes but LF.
fn stray(random: &mut Random, card: &Card) -> Vec<u8> {
    match (random.below(4), cards::block(random, card)) {
        (0, _) => b"\n".to_vec(),
        (1, Some(block)) => Line::block(block).bytes(random),
        (2, _) => Line::card(0x0001, 0x0000).bytes(random),
        _ => {
            let mut line = random.block().to_vec();
            line.retain(|&byte| byte != b'\n');
            line.push(b'\n');
            line
        }
    }
}
