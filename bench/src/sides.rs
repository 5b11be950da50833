//! The two that are asked: the emulator and the library. Each has a card of its own, built by the same additions.

use crate::rows::Row;
use std::collections::BTreeSet;
use std::hint::black_box;
use uluvoli::{Card, Failure, Request};
use uluvoli_oracle::felica_standard::emulator::doors::{self, Block, Pair};
use uluvoli_oracle::felica_standard::{BLOCK_SIZE, BlockListElement, ServiceCode};
use uluvoli_oracle::request::unpack;
use uluvoli_oracle::tree::{self, Addition};

/// Bytes of the arena lent to a card: the longest that it can use.
const ARENA: usize = 65_536;

/// One that answers the requests of a row.
pub trait Side {
    /// Serves the row's request once more, with one data or the other by turns.
    fn ask(&mut self, turn: usize) -> Pair;
    /// What the last request read.
    fn read(&self) -> Vec<u8>;
    /// All blocks in use.
    fn stored(&self) -> Vec<u8>;
}

/// The emulator. Codes and elements are unpacked for it beforehand, since that is not among the carried files.
pub struct Rust {
    card: tree::Card,
    codes: Vec<ServiceCode>,
    elements: Vec<BlockListElement>,
    write: bool,
    data: [Vec<u8>; 2],
    read: Vec<Block>,
}

impl Rust {
    pub fn new(row: &Row) -> Self {
        let mut card = tree::Card::new(0x0001, 0x0000, true);
        for &addition in &row.card {
            card.add(ARENA, addition)
                .expect("a row's card can be built");
        }
        if let Some((code, block)) = row.set {
            card.set_block(code, 0, block)
                .expect("a row sets a block of its card");
        }
        let request = &row.request;
        Rust {
            card,
            codes: request
                .codes
                .iter()
                .map(|&code| ServiceCode::new(code))
                .collect(),
            elements: unpack(&request.list, request.count).expect("a row's list is well formed"),
            write: request.write,
            data: [request.data.clone(), row.other.clone()],
            read: Vec::new(),
        }
    }

    /// A read, as `handle_secure_read` has it: it answers with a new list of blocks.
    fn blocks(&self) -> Result<Vec<Block>, Pair> {
        let (system, codes) = (self.card.rust(), black_box(&self.codes));
        let elements = black_box(&self.elements);
        let mut blocks = Vec::with_capacity(elements.len());
        for (index, element) in elements.iter().enumerate() {
            let (code, number) = doors::read_element(system, codes, index, element, true)?;
            blocks.push(doors::block(system, code.raw(), number).expect("the check found it"));
        }
        Ok(blocks)
    }

    /// A write, as `handle_secure_write` has it.
    fn write(&self, data: &[u8]) -> Result<(), Pair> {
        let (codes, elements) = (black_box(&self.codes), black_box(&self.elements));
        if data.len() < elements.len() * BLOCK_SIZE {
            return Err((0xFF, 0xAC));
        }
        doors::write_elements(self.card.rust(), codes, elements, data, true)
    }
}

impl Side for Rust {
    fn ask(&mut self, turn: usize) -> Pair {
        let told = if self.write {
            self.write(black_box(&self.data[turn % 2]))
        } else {
            self.blocks().map(|blocks| self.read = black_box(blocks))
        };
        told.err().unwrap_or((0, 0))
    }

    fn read(&self) -> Vec<u8> {
        self.read.concat()
    }

    fn stored(&self) -> Vec<u8> {
        self.card.arena().concat()
    }
}

/// The library, by way of the Rust bindings. The buffers are lent anew for each request.
pub struct Library<'a> {
    card: Card,
    arena: Vec<u8>,
    used: usize,
    /// Staging of a write, output of a read.
    room: Vec<u8>,
    row: &'a Row,
}

impl<'a> Library<'a> {
    pub fn new(row: &'a Row) -> Self {
        let mut card = Card::joining(0x0001, 0x0000);
        let mut arena = vec![0; ARENA];
        let mut used = 0;
        let mut numbers = BTreeSet::new();
        for &addition in &row.card {
            let added = match addition {
                Addition::Area {
                    depth,
                    code,
                    end,
                    version,
                } => card.add_area(depth, code, end, version),
                Addition::Service {
                    depth,
                    code,
                    blocks,
                    version,
                } => {
                    if numbers.insert(code / 64) {
                        used += BLOCK_SIZE * blocks as usize;
                    }
                    card.add_service(&mut arena, depth, code, blocks, version)
                }
                Addition::Limit(limit) => card.set_limit(
                    limit.upper_limit,
                    limit.lower_limit,
                    limit.generation_number,
                ),
            };
            added.expect("a row's card can be built");
        }
        if let Some((code, block)) = row.set {
            card.set_block(&mut arena, code, 0, &block)
                .expect("a row sets a block of its card");
        }
        let elements = row.request.count as usize;
        let room = if row.request.write {
            used
        } else {
            BLOCK_SIZE * elements
        };
        Library {
            card,
            arena,
            used,
            room: vec![0; room],
            row,
        }
    }
}

impl Side for Library<'_> {
    fn ask(&mut self, turn: usize) -> Pair {
        let asked = &self.row.request;
        let request = Request {
            open: asked.open,
            codes: &asked.codes,
            count: asked.count,
            list: &asked.list,
        };
        let told = if asked.write {
            let data = if turn.is_multiple_of(2) {
                &asked.data
            } else {
                &self.row.other
            };
            self.card
                .write(&mut self.arena, &mut self.room, &request, data)
        } else {
            self.card.read(&self.arena, &mut self.room, &request)
        };
        match told {
            Ok(()) => (0, 0),
            Err(Failure::Pair { sf1, sf2, .. }) => (sf1, sf2),
            Err(Failure::Refused(refusal)) => panic!("a row's request was refused: {refusal:?}"),
        }
    }

    fn read(&self) -> Vec<u8> {
        let read = !self.row.request.write;
        if read { self.room.clone() } else { Vec::new() }
    }

    fn stored(&self) -> Vec<u8> {
        self.arena[..self.used].to_vec()
    }
}
