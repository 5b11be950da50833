//! Lists of messages: random cards with the calls for code lists and block information on them, and the
//! calls that read both, with what the library answers. `README.md` has the lines.

pub mod met;

use crate::counts::Counts;
use crate::draw::{additions, codes, messages};
use crate::hex::{hex, hex_codes};
use crate::inspect::line::{Question, question};
use crate::inspect::lists::{MOST_NODES, PACKET};
use crate::inspect::question::answer;
use crate::inspect::{Lent, ROOM, message};
use crate::inspections::drawn;
use crate::lines;
use crate::program::List;
use crate::random::Random;
use crate::refusal::{NOT_BUILT, OUTPUT_SHORT, Refusal};
use crate::replay::fields::bytes;
use crate::replay::{self, ARENA, line::image};
use crate::texts::line::Line;
use crate::tree::{Addition, Card, MOST_BLOCKS, usable};
use met::{Met, WAYS};

/// Length and seed of the list that is small enough to be stored.
pub const SMALL: (usize, u64) = (53, 1);

/// The root of the first cards of a list has so many children, about as many as fill packets.
const CHILDREN: [u16; 7] = [15, 16, 17, 31, 32, 33, 63];

/// Areas and services of messages that have as many entries as may be, one more, or as many as a byte can count.
const ENTRIES: [(usize, usize); 8] = [
    (PACKET, 0),
    (0, PACKET),
    (PACKET + 1, 0),
    (PACKET, 1),
    (1, PACKET),
    (0, PACKET + 1),
    (255, 0),
    (1, 255),
];

/// Lengths in bytes of arenas about the largest that can be used, 4,096 blocks, and beyond it.
pub const ARENAS: [usize; 9] = [
    65_519, 65_520, 65_535, 65_536, 65_537, 65_551, 65_552, 69_999, 70_000,
];

/// This many cards, fixed by the seed; each text is a card with its calls. The last one is lent the largest arenas.
pub fn all(length: usize, seed: u64) -> List {
    let mut random = Random::new(seed);
    let mut counts = Counts::default();
    let drawn = (1..length).map(|number| {
        let at = number - 1;
        let text = match CHILDREN.get(at) {
            Some(&children) => wide(&mut random, children),
            None => drawn::tree(&mut random),
        };
        let mut draft = Draft::of(&mut random, &text);
        if at == 0 {
            draft.edges();
        }
        draft.others();
        draft.finished(&mut counts)
    });
    let mut texts: Vec<String> = drawn.collect();
    let mut last = Draft::of(
        &mut random,
        b"card\t0001\t0000\narea\t1\t0100\t01FF\t0000\n",
    );
    last.arenas();
    texts.push(last.finished(&mut counts));
    (texts, counts)
}

/// A card whose root has so many children, an area after every two services, and each packet of the root.
fn wide(random: &mut Random, children: u16) -> Vec<u8> {
    let mut text = Line::card(0x0001, 0x0000).bytes(random);
    for number in 1..=children {
        let (depth, code, version) = (1, number << 6, 0x0000);
        let addition = match number % 3 {
            0 => Addition::Area {
                depth,
                code,
                end: code | 0x3F,
                version,
            },
            _ => Addition::Service {
                depth,
                code: codes::defined(random, number),
                blocks: 1,
                version,
            },
        };
        text.extend(Line::addition(addition).bytes(random));
    }
    for packet in 0..=usize::from(children).div_ceil(PACKET) {
        text.extend(Line::of(format!("list 0000 {packet}")).bytes(random));
    }
    text
}

/// What the lists lent to a reader have to hold, in numbers of 16 bits; none if the bytes are no message.
fn needed(asked: &Question) -> Option<[usize; 2]> {
    match asked {
        Question::ReadList(bytes) => {
            let list = message::to_list(bytes)?;
            Some([2 * list.areas.len(), list.services.len()])
        }
        Question::ReadInfo(bytes) => {
            let information = message::to_information(bytes)?;
            Some([information.assigned_block_counts.len(); 2])
        }
        _ => None,
    }
}

/// A card and its lines as they are drawn.
struct Draft<'a> {
    random: &'a mut Random,
    card: Card,
    /// The length in bytes of the arena that is lent.
    arena: usize,
    list: String,
    met: Met,
}

impl<'a> Draft<'a> {
    /// The card of a text, and the calls that its questions are.
    fn of(random: &'a mut Random, text: &[u8]) -> Self {
        let mut lines = replay::lines(text);
        let mut draft = Draft {
            random,
            card: replay::start(lines.next()).expect("a text that is drawn starts with its card"),
            arena: ARENA,
            list: String::new(),
            met: Met::default(),
        };
        for (_, line) in lines {
            if let Some(image) = image(line) {
                draft.list += &lines::taken(&mut draft.card, draft.arena, image);
            } else if let Some(asked) = question(line) {
                draft.put(asked);
            }
        }
        draft
    }

    /// The lines, and what they met.
    fn finished(self, counts: &mut Counts) -> String {
        let join = self.card.relies();
        counts.meet(met::JOINS[usize::from(join)]);
        for name in self.met.names() {
            counts.meet(name.as_str());
        }
        lines::start(&self.card, join, ARENA) + &self.list
    }

    /// The calls that a question is, nothing for one that has no message.
    fn put(&mut self, asked: Question) {
        match asked {
            Question::Arena(length) => {
                self.arena = length;
                self.list += &lines::lent(length);
            }
            Question::List { .. } | Question::Info(_) => self.write(asked),
            Question::ReadList(_) | Question::ReadInfo(_) => self.read(asked),
            _ => {}
        }
    }

    /// Messages that have about as many entries as may be, and bytes that are hardly any.
    fn edges(&mut self) {
        for (areas, services) in ENTRIES {
            let bytes = messages::list_of(self.random, areas, services);
            self.put(Question::ReadList(bytes));
        }
        for nodes in [MOST_NODES, MOST_NODES + 1, 255] {
            let bytes = messages::information_of(self.random, nodes);
            self.put(Question::ReadInfo(bytes));
        }
        for bytes in [vec![], vec![0], vec![1, 0]] {
            self.put(Question::ReadList(bytes.clone()));
            self.put(Question::ReadInfo(bytes));
        }
    }

    /// Block information with each of the largest arenas: with no block in use, so that 4,096 are free at most; with all
    /// but one, and with all. Between them, with each of them, a store of one block more than is free: 22, or 7.
    fn arenas(&mut self) {
        self.informed();
        for blocks in [MOST_BLOCKS - 1, 1] {
            for arena in ARENAS {
                self.put(Question::Arena(arena));
                let free = usable(arena).saturating_sub(self.card.used());
                self.add(0x2049, free + 1);
            }
            self.add(if blocks == 1 { 0x2049 } else { 0x1049 }, blocks);
            self.informed();
        }
    }

    /// Block information of root, area and two services with each of the largest arenas.
    fn informed(&mut self) {
        for arena in ARENAS {
            self.put(Question::Arena(arena));
            self.met.arena(arena);
            self.put(Question::Info(vec![0x0000, 0x0100, 0x1049, 0x2049]));
        }
    }

    /// The line of a service under the root, taken or not.
    fn add(&mut self, code: u16, blocks: u32) {
        let service = Addition::Service {
            depth: 1,
            code,
            blocks,
            version: 0x0000,
        };
        let refusal = self.card.add(self.arena, service).err().unwrap_or(0);
        self.list += &lines::addition(service, refusal, self.card.used());
    }

    /// Calls of every kind, mostly about what the card has, some with another arena.
    fn others(&mut self) {
        let packet = self.random.pick(&[0, 1, u32::MAX]);
        let parent = 0xFFFF;
        self.put(Question::List { parent, packet });
        for _ in 0..2 {
            let (parent, packet) = messages::packet(self.random, &self.card);
            self.put(Question::List { parent, packet });
            let arena = additions::other_arena(self.random, &self.card);
            self.put(Question::Arena(arena));
            let nodes = messages::nodes(self.random, &self.card);
            self.put(Question::Info(nodes));
        }
        let bytes = messages::list(self.random, &self.card);
        self.put(Question::ReadList(bytes));
        let bytes = messages::information(self.random, &self.card);
        self.put(Question::ReadInfo(bytes));
    }

    /// A call that writes a message: with room enough, and at times too little; what is written is read,
    /// changed every second time.
    fn write(&mut self, asked: Question) {
        let lent = Lent {
            room: ROOM,
            arena: self.arena,
        };
        let Ok(written) = answer(&mut self.card, lent, &asked) else {
            let room = self.random.pick(&[0, 2, 200]);
            return self.written(&asked, room);
        };
        let written = bytes(written.as_bytes()).expect("a message is told in hex");
        let needed = written.len();
        let more = needed + 1 + self.random.below(60);
        let enough = self.random.pick(&[needed, needed, needed + 1, more]);
        self.written(&asked, enough);
        if self.random.once_in(2) {
            let less = self.random.below(needed);
            let less = self.random.pick(&[needed - 1, needed - 1, less]);
            self.written(&asked, less);
        }
        let bytes = messages::changed(self.random, written);
        self.put(match asked {
            Question::List { .. } => Question::ReadList(bytes),
            _ => Question::ReadInfo(bytes),
        });
    }

    /// The line of a call that writes a message, into this room; at times it is asked first of a card that
    /// is none.
    fn written(&mut self, asked: &Question, room: usize) {
        let lent = Lent {
            room,
            arena: self.arena,
        };
        let told = answer(&mut self.card, lent, asked);
        if self.random.once_in(6) {
            let way = self.random.below(WAYS.len());
            self.met.unbuilt(asked, way, &told);
            self.list += &writing(asked, 1 + way, room, &Err(NOT_BUILT));
        }
        self.met.written(&self.card, lent, asked, &told);
        self.list += &writing(asked, 0, room, &told);
    }

    /// A call that reads a message: with lists that are long enough, and at times with shorter ones.
    fn read(&mut self, asked: Question) {
        let Some([first, second]) = needed(&asked) else {
            let lent = self
                .random
                .pick(&[[0, 0], [1, 40], [2 * PACKET, MOST_NODES]]);
            return self.read_into(&asked, lent);
        };
        let more = self.random.pick(&[0, 0, 1, 7]);
        self.read_into(&asked, [first + more, second + more]);
        if self.random.once_in(2) {
            let (one, other) = (first.saturating_sub(1), second.saturating_sub(1));
            let any = [self.random.below(first + 1), self.random.below(second + 1)];
            let lent = [[one, second], [first, other], [one, other], any];
            let lent = self.random.pick(&lent);
            self.read_into(&asked, lent);
        }
    }

    /// The line of a call that reads a message, into lists of so many numbers.
    fn read_into(&mut self, asked: &Question, lent: [usize; 2]) {
        let short = needed(asked).is_some_and(|[one, other]| lent[0] < one || lent[1] < other);
        let room = Lent {
            room: ROOM,
            arena: self.arena,
        };
        let told = match answer(&mut self.card, room, asked) {
            Ok(_) if short => Err(OUTPUT_SHORT),
            told => told,
        };
        self.met.read(&self.card, room, asked, lent, &told);
        let (letter, bytes) = match asked {
            Question::ReadList(bytes) => ('c', bytes),
            Question::ReadInfo(bytes) => ('i', bytes),
            _ => unreachable!("it reads no message"),
        };
        let ([one, other], bytes, told) = (lent, hex(bytes), fields(&told));
        self.list += &format!("{letter} {bytes} {one:08X} {other:08X} {told}\n");
    }
}

/// The line of a call that writes a message.
fn writing(asked: &Question, card: usize, room: usize, told: &Result<String, Refusal>) -> String {
    let asked = match asked {
        Question::List { parent, packet } => format!("C {parent:04X} {packet:08X}"),
        Question::Info(nodes) => format!("I {}", hex_codes(nodes)),
        _ => unreachable!("it writes no message"),
    };
    format!("{asked} {card:02X} {room:08X} {}\n", fields(told))
}

/// The fields of an answer, parted by blanks: those of the question, or the refusal.
fn fields(told: &Result<String, Refusal>) -> String {
    match told {
        Ok(fields) => fields.replace('\t', " "),
        Err(refusal) => format!("!{refusal:02X}"),
    }
}
