//! Random requests on random cards: what each is told and what it changes. `README.md` has the
//! lines.

mod met;

use crate::cause::{self, Cause};
use crate::counts::Counts;
use crate::draw::{additions, cards, requests};
use crate::felica_standard::emulator::doors::Block;
use crate::hex::{hex, hex_codes};
use crate::lines;
use crate::program::List;
use crate::random::Random;
use crate::request::{self, Request, Told};
use crate::tree::{Card, usable};

/// Length and seed of the list that is small enough to be stored.
pub const SMALL: (usize, u64) = (2_000, 1);

/// A card gets no further request once its text, causes and whether it joins aside, is this long, so that
/// it fits one file.
const LONG_TEXT: usize = 20_000;

/// The bytes of a line's last field, the cause, with the blank before it.
const CAUSE_FIELD: usize = 3;

/// The bytes of the field of the first line that says whether the card joins, with its blank.
const JOIN_FIELD: usize = 3;

/// This many requests, fixed by the seed; each text is a card with its requests.
pub fn all(length: usize, seed: u64) -> List {
    let mut random = Random::new(seed);
    let mut counts = Counts::default();
    let mut texts = Vec::new();
    let mut left = length;
    while left > 0 {
        let (text, served) = card(&mut random, left, &mut counts);
        texts.push(text);
        left -= served;
    }
    (texts, counts)
}

/// The text of one card, and how many requests it has: at least one, at most this many.
fn card(random: &mut Random, most: usize, counts: &mut Counts) -> (String, usize) {
    let mut arena = 65_536;
    let mut card = Card::new(random.word() as u16, random.word() as u16, true);
    let mut added = String::new();
    for addition in cards::additions(random, arena) {
        card.add(arena, addition)
            .expect("a card accepts what was drawn for it");
        added += &lines::addition(addition, 0, card.used());
    }
    let mut text = lines::start(&card, card.relies(), arena) + &added;
    for _ in 0..card.used().min(20) {
        set(random, &mut card, &mut text);
    }
    let wanted = most.min(1 + random.below(60));
    let mut served = 0;
    let mut last = None;
    while served < wanted && text.len() - served * CAUSE_FIELD - JOIN_FIELD < LONG_TEXT {
        let short = |arena| usable(arena) < card.used();
        if random.once_in(if short(arena) { 2 } else { 40 }) {
            arena = additions::other_arena(random, &card);
            text += &lines::lent(arena);
        }
        if random.once_in(6) && !short(arena) {
            set(random, &mut card, &mut text);
        }
        // Now and then a request is sent again.
        let request = match last {
            Some(request) if random.once_in(12) => request,
            _ => requests::request(random, &card),
        };
        let room = requests::room(random, &card, arena, &request);
        text += &serve(&mut card, arena, room, &request, counts);
        last = Some(request);
        served += 1;
    }
    (text, served)
}

/// Sets a block of the card, if one was drawn.
fn set(random: &mut Random, card: &mut Card, text: &mut String) {
    if let Some((code, number, block)) = cards::block(random, card) {
        card.set_block(code, number, block)
            .expect("a block of the card was drawn");
        *text += &lines::block(code, number, &block);
    }
}

/// The line of one request with its answer.
pub fn serve(
    card: &mut Card,
    arena: usize,
    room: usize,
    request: &Request,
    counts: &mut Counts,
) -> String {
    let before = card.arena();
    let told = request::serve(card, arena, room, request);
    met::count(counts, card, request, &told);
    let (answer, outcome, cause) = match told {
        Err(refusal) => (format!("!{refusal:02X}"), "-".to_string(), None),
        Ok(Told { pair, read }) => {
            let outcome = if request.write {
                changes(&before, &card.arena())
            } else {
                hex(&read)
            };
            let cause = cause::of(card, request, pair);
            (format!("{:02X}{:02X}", pair.0, pair.1), outcome, cause)
        }
    };
    let cause = cause.map_or(0, Cause::number);
    format!(
        "{} {} {} {:08X} {} {} {room:08X} {answer} {outcome} {cause:02X}\n",
        if request.write { 'W' } else { 'R' },
        if request.open { 'O' } else { 'S' },
        hex_codes(&request.codes),
        request.count,
        hex(&request.list),
        hex(&request.data),
    )
}

/// The blocks of the arena that differ, each as its place and its new bytes; `-` if none do.
fn changes(before: &[Block], after: &[Block]) -> String {
    let mut text = String::new();
    for (place, (old, new)) in before.iter().zip(after).enumerate() {
        if old != new {
            text += &format!("{place:04X}{}", hex(new));
        }
    }
    if text.is_empty() {
        text.push('-');
    }
    text
}
