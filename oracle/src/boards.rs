//! Lists of boards: the texts with boards, in the lines that other lists have, with the records that the
//! library gives of a board. `README.md` has the lines.

use crate::board::{self, LANES};
use crate::counts::Counts;
use crate::felica_standard::BLOCK_SIZE;
use crate::hex::hex;
use crate::lines;
use crate::program::List;
use crate::random::Random;
use crate::refusal::Refusal;
use crate::replay::ARENA;
use crate::replay::line::{self, Asked, Image};
use crate::request::{self, DONE, Request};
use crate::requests;
use crate::texts::boards;
use crate::tree::Card;

/// Length and seed of the list that is small enough to be stored.
pub const SMALL: (usize, u64) = (80, 1);

/// The bytes that a board is written as.
const ROOM: usize = LANES as usize * BLOCK_SIZE;

/// This many cards, fixed by the seed; each text is a card with its boards and what is written in between.
pub fn all(length: usize, seed: u64) -> List {
    let mut random = Random::new(seed);
    let mut counts = Counts::default();
    let texts = (0..length).map(|_| {
        let text = boards::text(&mut random, 20);
        card(&mut random, &text, &mut counts)
    });
    (texts.collect(), counts)
}

/// The lines of one text's card; what is malformed in it is left out.
fn card(random: &mut Random, text: &[u8], counts: &mut Counts) -> String {
    let mut lines = text.split(|&byte| byte == b'\n');
    let Some(Some(Image::Card {
        system,
        version,
        join,
    })) = lines.next().map(line::image)
    else {
        unreachable!("a text with boards starts with its card");
    };
    let mut card = Card::new(system, version, join);
    let mut list = lines::start(&card, join, ARENA);
    for line in lines {
        if let Some(image) = line::image(line) {
            list += &lines::taken(&mut card, ARENA, image);
        } else if let Some(asked) = line::asked(line) {
            list += &match asked {
                Asked::Request(request) => {
                    requests::serve(&mut card, ARENA, ARENA, &request, counts)
                }
                Asked::Board(code) => lent(random, &mut card, code, counts),
            };
        }
    }
    list
}

/// The line of a board, for which at times too little room is lent; now and then it is asked once more, with
/// an arena of another length, mostly too short.
fn lent(random: &mut Random, card: &mut Card, code: u16, counts: &mut Counts) -> String {
    let mut room = || match random.below(8) {
        0 => random.pick(&[0, 1, 16, 112, ROOM - 1]),
        1 => ROOM + 1 + random.below(100),
        _ => ROOM,
    };
    let (first, second) = (room(), room());
    let mut list = refresh(card, ARENA, first, code, counts);
    if random.once_in(10) {
        let used = card.used() as usize * BLOCK_SIZE;
        let arena = random.pick(&[used.saturating_sub(1), used / 2, 0, used, used + 15]);
        list += &lines::lent(arena);
        list += &refresh(card, arena, second, code, counts);
        list += &lines::lent(ARENA);
    }
    list
}

/// The line of a board: its code, the room lent, the answer, and the records.
fn refresh(card: &mut Card, arena: usize, room: usize, code: u16, counts: &mut Counts) -> String {
    let (answer, records) = match answer(card, arena, room, code) {
        Err(refusal) => (format!("!{refusal:02X}"), Vec::new()),
        Ok(((sf1, sf2), records)) => (format!("{sf1:02X}{sf2:02X}"), records),
    };
    counts.meet(format!("B {answer}"));
    format!("B {code:04X} {room:08X} {answer} {}\n", hex(&records))
}

/// A board as the library gives it: the pair, and the records if it is 00 00.
fn answer(
    card: &mut Card,
    arena: usize,
    room: usize,
    code: u16,
) -> Result<((u8, u8), Vec<u8>), Refusal> {
    let read = Request::read_of(code, 0..LANES);
    let told = request::serve(card, arena, room, &read)?;
    if told.pair != DONE {
        return Ok((told.pair, Vec::new()));
    }
    let (blocks, _) = told.read.as_chunks();
    let records = board::lanes(blocks)?.into_iter().flat_map(record);
    Ok((DONE, records.collect()))
}

/// A lane's record: 1 if it is filled, the crew's length, the race low byte first, the crew and zeros.
fn record(lane: Option<(u16, &str)>) -> [u8; BLOCK_SIZE] {
    let mut record = [0; BLOCK_SIZE];
    if let Some((race, crew)) = lane {
        record[0] = 1;
        record[1] = crew.len() as u8;
        record[2..4].copy_from_slice(&race.to_le_bytes());
        record[4..][..crew.len()].copy_from_slice(crew.as_bytes());
    }
    record
}
