//! Texts with lane boards: a card with a few stores that hold lanes, refreshes of them, and what marshals
//! and others write in between.

pub mod cases;
pub mod met;

use super::line::Line;
use super::spoil;
use crate::board::LANES;
use crate::draw::lanes::{self, Lanes};
use crate::draw::{codes, requests};
use crate::felica_standard::emulator::doors::{self, Block};
use crate::felica_standard::{BlockListElement, ServiceCode, ServiceKind};
use crate::random::Random;
use crate::replay::ARENA;
use crate::replay::line::MOST_BYTES;
use crate::request::{self, Request};
use crate::tree::{Addition, Card};

/// The attributes of a kind of store: those that write all of a block, then those that only read, with a
/// key and without.
const KINDS: [[u16; 4]; 3] = [
    [0x08, 0x09, 0x0A, 0x0B],
    [0x0C, 0x0D, 0x0E, 0x0F],
    [0x10, 0x11, 0x16, 0x17],
];

/// How many blocks a store of lanes has: mostly eight.
const BLOCKS: [u32; 20] = [
    8, 8, 8, 8, 8, 8, 8, 8, 8, 8, 8, 8, 8, 8, 9, 12, 300, 7, 3, 0,
];

/// Malformed refreshes, with `|` for a tab.
const NO_CODE: [&str; 14] = [
    "L",
    "L|",
    "L|-",
    "L|104",
    "L|10490",
    "L|10491049",
    "L|1049|",
    "L||1049",
    "L|1049|1049",
    "L|O|1049",
    "L|104G",
    "L|1049\r",
    "L| 049",
    "L|+049",
];

/// A text as it is drawn, with the card that its lines have made so far.
struct Draft<'a> {
    random: &'a mut Random,
    card: Card,
    text: Vec<u8>,
}

/// A text with about this many lines after its image.
pub fn text(random: &mut Random, lines: usize) -> Vec<u8> {
    let card = Card::new(random.word() as u16, random.word() as u16, true);
    let mut draft = Draft {
        random,
        card,
        text: Vec::new(),
    };
    draft.image();
    for _ in 0..lines {
        match draft.random.below(20) {
            0..4 => draft.refresh_any(),
            4..16 => draft.draw_lanes(),
            16 | 17 => draft.other_request(),
            18 => draft.malformed(),
            _ => draft.other_code(),
        }
    }
    Line::joining(draft.text, &draft.card)
}

impl Draft<'_> {
    /// The image: up to three stores, each with lanes in it, under the root or an area.
    fn image(&mut self) {
        let (system, version) = (
            self.card.rust().system_code(),
            self.card.key_version(0xFFFF),
        );
        self.line(&Line::card(system, version));
        let depth = if self.random.once_in(3) {
            self.add(Addition::Area {
                depth: 1,
                code: 0x0040,
                end: 0xFFFE,
                version: 0x0000,
            });
            2
        } else {
            1
        };
        for _ in 0..1 + self.random.below(3) {
            self.store(depth);
        }
    }

    /// A store: one or two services of a number, and lanes set in it.
    fn store(&mut self, depth: u32) {
        let number = 1 + self.random.below(0x3FE) as u16;
        let kind = KINDS[self.random.pick(&[0, 0, 0, 0, 0, 0, 1, 2])];
        let blocks = self.random.pick(&BLOCKS);
        let first = number << 6 | kind[self.random.below(2)];
        let joined = number << 6 | self.random.pick(&kind);
        let codes = if self.random.once_in(2) {
            vec![first]
        } else {
            vec![first, joined]
        };
        for code in codes {
            self.add(Addition::Service {
                depth,
                code,
                blocks,
                version: 0x0000,
            });
        }
        if self.random.once_in(4) {
            return;
        }
        let lanes = self.drawn();
        for (place, block) in (0..).zip(lanes) {
            let set = block != Block::default() || self.random.once_in(8);
            if set && self.card.set_block(first, place, block).is_ok() {
                self.line(&Line::block((first, place, block)));
            }
        }
    }

    /// Lanes of one race, every second time with something wrong.
    fn drawn(&mut self) -> Lanes {
        let mut lanes = lanes::lanes(self.random);
        if self.random.once_in(2) {
            lanes::spoil(self.random, &mut lanes);
        }
        lanes
    }

    /// Adds a node that the card accepts; another one is left out.
    fn add(&mut self, addition: Addition) {
        if self.card.add(ARENA, addition).is_ok() {
            self.line(&Line::addition(addition));
        }
    }

    /// Adds a line.
    fn line(&mut self, line: &Line) {
        let bytes = line.bytes(self.random);
        self.text.extend(bytes);
    }

    /// The line of a request, which is carried out.
    fn request(&mut self, request: &Request) {
        let _ = request::serve(&mut self.card, ARENA, ARENA, request);
        self.line(&Line::request(request));
    }

    /// A refresh of any store of the card, at times twice.
    fn refresh_any(&mut self) {
        let code = self.random.pick(&codes::services(&self.card));
        for _ in 0..1 + self.random.below(8) / 7 {
            self.line(&Line::board(code));
        }
    }

    /// A refresh through one of the codes of this one's number.
    fn refresh(&mut self, code: u16) {
        let mut codes = codes::services(&self.card);
        codes.retain(|one| one >> 6 == code >> 6);
        let code = self.random.pick(&codes);
        self.line(&Line::board(code));
    }

    /// A refresh of something that is no store of the card, or hardly one.
    fn other_code(&mut self) {
        let code = match self.random.below(3) {
            0 => codes::no_service(self.random, &self.card),
            1 => codes::unknown(self.random, &self.card),
            _ => codes::any(self.random, &self.card),
        };
        self.line(&Line::board(code));
    }

    /// A malformed refresh.
    fn malformed(&mut self) {
        if self.random.once_in(40) {
            let zeros = MOST_BYTES - 8 + self.random.below(4);
            self.text.extend(b"L\t1049");
            self.text.extend(vec![b'0'; zeros]);
            self.text.push(b'\n');
            return;
        }
        if self.random.once_in(2) {
            let text = self.random.pick(&NO_CODE).replace('|', "\t") + "\n";
            self.text.extend(text.bytes());
            return;
        }
        let code = self.random.pick(&codes::services(&self.card));
        let mut line = Line::board(code);
        spoil::spoil(self.random, &mut line);
        self.line(&line);
    }

    /// Any request, most of them of stores that hold lanes.
    fn other_request(&mut self) {
        let request = requests::request(self.random, &self.card);
        self.request(&request);
    }

    /// Writes lanes into a store of the card, those of it that are to be other than they are; mostly a
    /// refresh follows.
    fn draw_lanes(&mut self) {
        let code = self.random.pick(&codes::services(&self.card));
        let held: Lanes = std::array::from_fn(|place| self.held(code, place));
        let lanes = self.redrawn(&held);
        let cyclic = ServiceCode::new(code).kind() == Some(ServiceKind::Cyclic);
        let places: Vec<usize> = match cyclic {
            true => (0..LANES as usize - self.random.below(8) / 7).collect(),
            false => (0..LANES as usize)
                .filter(|&place| lanes[place] != held[place])
                .collect(),
        };
        if !places.is_empty() {
            let sent = places.into_iter().map(|place| {
                let number = if cyclic { 0 } else { place as u16 };
                (number, lanes[place])
            });
            let open = !ServiceCode::new(code).requires_key() && self.random.once_in(2);
            self.request(&write_of(code, open, sent));
        }
        if !self.random.once_in(4) {
            self.refresh(code);
        }
    }

    /// What a store holds in a place; zeros where it has none.
    fn held(&self, code: u16, place: usize) -> Block {
        doors::block(self.card.rust(), code, place).unwrap_or_default()
    }

    /// Lanes after a redraw: two crews exchanged, one lane anew or empty, something wrong, or another race.
    fn redrawn(&mut self, held: &Lanes) -> Lanes {
        let mut lanes = *held;
        let places = [(); 2].map(|_| self.random.below(lanes.len()));
        let [one, two] = places;
        match self.random.below(8) {
            0 | 1 => {
                let crew: [u8; 12] = std::array::from_fn(|at| held[one][3 + at]);
                lanes[one][3..15].copy_from_slice(&held[two][3..15]);
                lanes[two][3..15].copy_from_slice(&crew);
            }
            2 => {
                let race = u16::from_le_bytes([held[two][1], held[two][2]]);
                lanes[one] = lanes::lane(self.random, one, race);
            }
            3 => lanes[one] = Block::default(),
            4 => lanes::spoil(self.random, &mut lanes),
            _ => return self.drawn(),
        }
        lanes
    }
}

/// A write of blocks of one service, by their numbers.
fn write_of(code: u16, open: bool, sent: impl Iterator<Item = (u16, Block)>) -> Request {
    let mut write = Request {
        write: true,
        open,
        codes: vec![code],
        count: 0,
        list: Vec::new(),
        data: Vec::new(),
    };
    for (number, block) in sent {
        write.count += 1;
        write
            .list
            .extend(BlockListElement::new(number, 0, 0).pack());
        write.data.extend(block);
    }
    write
}
