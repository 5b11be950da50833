//! Texts drawn at random: trees with all that can be asked about their nodes, and image, requests and questions
//! in any order.

use crate::draw::additions::{self, Habit, Stores};
use crate::draw::{cards, codes, messages, requests};
use crate::felica_standard::BLOCK_SIZE;
use crate::hex::{hex, hex_codes};
use crate::inspect::lists::{MOST_NODES, PACKET, code_list};
use crate::inspect::{ROOM, message};
use crate::random::Random;
use crate::refusal::COUNTS_DIFFER;
use crate::replay::ARENA;
use crate::request;
use crate::texts::line::Line;
use crate::texts::spoil;
use crate::tree::Card;

/// How trees grow: wide, so that areas have many children, mixed, deep, of areas, and all on one store.
const HABITS: [Habit; 5] = [
    Habit {
        spoilt: 12,
        areas: 1,
        joins: 3,
        deep: false,
        stores: Stores::Few,
    },
    Habit {
        spoilt: 4,
        areas: 3,
        joins: 4,
        deep: false,
        stores: Stores::Any,
    },
    Habit {
        spoilt: 4,
        areas: 7,
        joins: 4,
        deep: true,
        stores: Stores::Any,
    },
    Habit {
        spoilt: 12,
        areas: 9,
        joins: 2,
        deep: false,
        stores: Stores::Few,
    },
    Habit {
        spoilt: 20,
        areas: 1,
        joins: 9,
        deep: false,
        stores: Stores::OneLarge,
    },
];

/// After this many draws without a service of another count than its store there is none.
const MOST_TRIES: usize = 600;

/// A text as it is drawn, with the card that its lines have made so far.
struct Draft<'a> {
    random: &'a mut Random,
    card: Card,
    text: Vec<u8>,
}

/// A tree, its directory, every packet of every area and the one beyond, and every node's blocks.
pub fn tree(random: &mut Random) -> Vec<u8> {
    let mut draft = Draft::new(random, true);
    let tries = match draft.random.below(8) {
        0 => 0,
        1 => 90,
        2 => 20 + draft.random.below(30),
        _ => draft.random.below(25),
    };
    draft.grow(tries);
    draft.say("dir".to_string());
    draft.lists();
    draft.informations();
    for _ in 0..draft.random.below(6) {
        draft.question();
    }
    draft.finished()
}

/// Lines of every kind after a small tree: what the card is given, requests, and questions.
pub fn mixed(random: &mut Random, lines: usize) -> Vec<u8> {
    let mut draft = Draft::new(random, true);
    let tries = draft.random.below(20);
    draft.grow(tries);
    for _ in 0..lines {
        draft.any();
    }
    draft.finished()
}

/// The same on a card that does not join, with a service at the end, if one can be drawn, of another count
/// than its store, and a question that is not answered.
pub fn counts(random: &mut Random, lines: usize) -> Vec<u8> {
    let mut draft = Draft::new(random, false);
    let tries = 2 + draft.random.below(20);
    draft.grow(tries);
    for _ in 0..lines {
        draft.any();
    }
    draft.other_count();
    draft.question();
    draft.finished()
}

/// The same, and every second line is spoilt, or no line at all.
pub fn malformed(random: &mut Random, lines: usize) -> Vec<u8> {
    let mut draft = Draft::new(random, true);
    let tries = draft.random.below(8);
    draft.grow(tries);
    for _ in 0..lines {
        match draft.random.below(8) {
            0..4 => draft.spoilt_question(),
            4 => draft.stray(),
            _ => draft.any(),
        }
    }
    if draft.random.once_in(4) {
        draft.spoilt_image();
        draft.any();
    }
    draft.finished()
}

impl<'a> Draft<'a> {
    /// A card that joins or does not, and its line.
    fn new(random: &'a mut Random, join: bool) -> Self {
        let card = Card::new(random.word() as u16, random.word() as u16, join);
        let first = Line::card(card.rust().system_code(), card.key_version(0xFFFF));
        let text = first.bytes(random);
        Draft { random, card, text }
    }

    /// The text, with `join` in its first line if its card has to join.
    fn finished(self) -> Vec<u8> {
        Line::joining(self.text, &self.card)
    }

    /// Puts a line down, its fields parted by blanks here.
    fn say(&mut self, fields: String) {
        let line = Line::of(fields);
        self.text.extend(line.bytes(self.random));
    }

    /// Additions by one habit; those that the card refuses are left out.
    fn grow(&mut self, tries: usize) {
        let habit = self.random.pick(&HABITS);
        for _ in 0..tries {
            self.add(habit);
        }
    }

    /// An addition that the card accepts, or nothing.
    fn add(&mut self, habit: Habit) {
        let addition = additions::addition(self.random, &self.card, ARENA, habit);
        if self.card.add(ARENA, addition).is_ok() {
            let line = Line::addition(addition).bytes(self.random);
            self.text.extend(line);
        }
    }

    /// A service of another count than its store, which the card refuses, if one can be drawn.
    fn other_count(&mut self) {
        let refused = (0..MOST_TRIES).find_map(|_| {
            let addition = additions::addition(self.random, &self.card, ARENA, HABITS[1]);
            let answer = self.card.clone().add(ARENA, addition);
            (answer == Err(COUNTS_DIFFER)).then_some(addition)
        });
        if let Some(addition) = refused {
            let line = Line::addition(addition).bytes(self.random);
            self.text.extend(line);
        }
    }

    /// Every packet of every area, and the one after the last.
    fn lists(&mut self) {
        let mut areas = codes::areas(&self.card);
        areas.dedup();
        for area in areas {
            let children = self
                .card
                .children(area)
                .map_or(0, |children| children.len());
            for packet in 0..=children.div_ceil(PACKET).max(1) {
                self.say(format!("list {area:04X} {packet}"));
            }
        }
    }

    /// The blocks of every node, some of them asked about together; in another arena at times.
    fn informations(&mut self) {
        let nodes: Vec<u16> = self.card.nodes().iter().map(|node| node.code).collect();
        let mut rest = nodes.as_slice();
        while !rest.is_empty() {
            if self.random.once_in(3) {
                self.arena();
            }
            let most = rest.len().min(MOST_NODES);
            let (some, after) = rest.split_at(1 + self.random.below(most));
            self.say(format!("info {}", hex_codes(some)));
            rest = after;
        }
    }

    /// Another arena for questions: about as long as the blocks in use, the whole, or any.
    fn arena(&mut self) {
        let in_use = self.card.used() as usize * BLOCK_SIZE;
        let length = match self.random.below(6) {
            0 => in_use,
            1 => in_use.saturating_sub(1),
            2 => in_use + self.random.below(40),
            3 => self.random.below(ARENA + 1),
            _ => ARENA,
        };
        self.say(format!("arena {}", length.min(ARENA)));
    }

    /// A question that needs room, with just the room, a byte less, or any.
    fn room(&mut self) {
        let (fields, needed) = match self.random.below(3) {
            0 => ("dir".to_string(), 4 * self.card.nodes().len()),
            1 => {
                let (area, packet) = messages::packet(self.random, &self.card);
                let list = code_list(&self.card, area, packet);
                let needed = list.map_or(3, |list| message::of_list(&list).len());
                (format!("list {area:04X} {packet}"), needed)
            }
            _ => {
                let nodes = messages::nodes(self.random, &self.card);
                (format!("info {}", hex_codes(&nodes)), 1 + 4 * nodes.len())
            }
        };
        let room = match self.random.below(4) {
            0 => needed,
            1 => needed.saturating_sub(1),
            2 => self.random.below(needed + 2),
            _ => ROOM,
        };
        self.say(format!("room {}", room.min(ROOM)));
        self.say(fields);
        if self.random.once_in(2) {
            self.say(format!("room {ROOM}"));
        }
    }

    /// A line of any kind.
    fn any(&mut self) {
        match self.random.below(20) {
            0 | 1 => {
                let habit = self.random.pick(&HABITS);
                self.add(habit);
            }
            2 => {
                if let Some(block) = cards::block(self.random, &self.card) {
                    let (code, number, content) = block;
                    let set = self.card.set_block(code, number, content);
                    set.expect("a block of the card was drawn");
                    self.text.extend(Line::block(block).bytes(self.random));
                }
            }
            3..6 => {
                let request = requests::request(self.random, &self.card);
                let _ = request::serve(&mut self.card, ARENA, ARENA, &request);
                self.text.extend(Line::request(&request).bytes(self.random));
            }
            6 => {
                let code = codes::any(self.random, &self.card);
                self.text.extend(Line::board(code).bytes(self.random));
            }
            7 | 8 => self.room(),
            9 => self.arena(),
            _ => self.question(),
        }
    }

    /// A question of any kind.
    fn question(&mut self) {
        let fields = self.asked();
        self.say(fields);
    }

    /// The fields of a question, parted by blanks.
    fn asked(&mut self) -> String {
        let code = codes::any(self.random, &self.card);
        match self.random.below(16) {
            0 | 1 => {
                let (area, packet) = messages::packet(self.random, &self.card);
                format!("list {area:04X} {packet}")
            }
            2 | 3 => format!(
                "info {}",
                hex_codes(&messages::nodes(self.random, &self.card))
            ),
            4 | 5 => format!("readlist {}", hex(&messages::list(self.random, &self.card))),
            6 | 7 => format!(
                "readinfo {}",
                hex(&messages::information(self.random, &self.card))
            ),
            8 => format!("total {code:04X}"),
            9 => format!("ver {code:04X}"),
            10 => "dir".to_string(),
            11 => {
                let list = codes::area_list(self.random, &self.card);
                format!("areas {}", hex_codes(&list))
            }
            12 => {
                let list = codes::service_list(self.random, &self.card);
                format!("svcs {}", hex_codes(&list))
            }
            13 => {
                let count = self.card.store(code).unwrap_or(0) as usize;
                let number = self.random.below(count + 2);
                format!("block {code:04X} {number}")
            }
            14 => "used".to_string(),
            _ => format!("attr {:04X}", self.random.word() as u16 & 0xFFDF),
        }
    }

    /// A question with something wrong about it, mostly.
    fn spoilt_question(&mut self) {
        let mut line = Line::of(self.asked());
        spoil::spoil(self.random, &mut line);
        self.text.extend(line.bytes(self.random));
    }

    /// A line of an image with something wrong about it, mostly.
    fn spoilt_image(&mut self) {
        let habit = self.random.pick(&HABITS);
        let addition = additions::addition(self.random, &self.card, ARENA, habit);
        let mut line = Line::addition(addition);
        spoil::spoil(self.random, &mut line);
        self.text.extend(line.bytes(self.random));
    }

    /// A line that is nothing: empty, of any bytes but LF, or nearly a question's.
    fn stray(&mut self) {
        match self.random.below(3) {
            0 => {}
            1 => {
                let mut line = self.random.block().to_vec();
                line.retain(|&byte| byte != b'\n');
                self.text.extend(line);
            }
            _ => {
                let names = [
                    "lists",
                    "Info",
                    "dir ",
                    "used\r",
                    "blocks",
                    "rooms",
                    "areas\t\t",
                ];
                self.text.extend(self.random.pick(&names).bytes());
            }
        }
        self.text.push(b'\n');
    }
}
