//! One request to a card: our refusals, the length test of the data, then the Rust's answer.

use crate::felica_standard::emulator::doors::{self, Pair};
use crate::felica_standard::{BLOCK_SIZE, BlockListElement, ServiceCode};
use crate::refusal::{self, Refusal};
use crate::tree::{Card, usable};

/// A request has at most this many elements.
pub const MOST_ELEMENTS: u32 = 512;

/// A request has at most this many service codes.
pub const MOST_CODES: usize = 16;

/// The pair of a request that was carried out.
pub const DONE: Pair = (0x00, 0x00);

/// The pair of a write whose data are too short.
const DATA_SHORT: Pair = (0xFF, 0xAC);

/// A request: open or in a session, its codes, its list of `count` packed elements and, for a
/// write, its data.
#[derive(Clone, Debug, PartialEq, Eq)]
pub struct Request {
    pub write: bool,
    pub open: bool,
    pub codes: Vec<u16>,
    pub count: u32,
    pub list: Vec<u8>,
    pub data: Vec<u8>,
}

impl Request {
    /// A read in a session of blocks of one service.
    pub fn read_of(code: u16, numbers: impl Iterator<Item = u16>) -> Self {
        let elements = numbers.map(|number| BlockListElement::new(number, 0, 0));
        let packed: Vec<Vec<u8>> = elements.map(|element| element.pack()).collect();
        Request {
            write: false,
            open: false,
            codes: vec![code],
            count: packed.len() as u32,
            list: packed.concat(),
            data: Vec::new(),
        }
    }
}

/// What a request that is not refused is told: the pair, and the bytes read.
#[derive(Clone, Debug, PartialEq, Eq)]
pub struct Told {
    pub pair: Pair,
    pub read: Vec<u8>,
}

/// Serves a request with an arena of this many bytes lent, and this much room: the length of
/// the staging for a write, of the output for a read.
pub fn serve(
    card: &mut Card,
    arena: usize,
    room: usize,
    request: &Request,
) -> Result<Told, Refusal> {
    if request.count > MOST_ELEMENTS {
        return Err(refusal::TOO_MANY_ELEMENTS);
    }
    if request.codes.len() > MOST_CODES {
        return Err(refusal::TOO_MANY_CODES);
    }
    let Some(elements) = unpack(&request.list, request.count) else {
        return Err(refusal::LIST_LENGTH);
    };
    if usable(arena) < card.used() {
        return Err(refusal::ARENA_SHORT);
    }
    if request.write && room < card.used() as usize * BLOCK_SIZE {
        return Err(refusal::STAGING_SHORT);
    }
    if !request.write && room < elements.len() * BLOCK_SIZE {
        return Err(refusal::OUTPUT_SHORT);
    }
    Ok(if request.write {
        write(card, request, &elements)
    } else {
        read(card, request, &elements)
    })
}

/// The elements of a packed list; none if the list ends before `count` of them do, or runs on.
/// A first byte with its top bit set starts two bytes, one without it three.
pub fn unpack(list: &[u8], count: u32) -> Option<Vec<BlockListElement>> {
    let mut rest = list;
    let mut elements = Vec::new();
    for _ in 0..count {
        let (head, number) = match *rest {
            [head @ 0x80..=0xFF, low, ref after @ ..] => {
                rest = after;
                (head, u16::from(low))
            }
            [head @ 0x00..=0x7F, low, high, ref after @ ..] => {
                rest = after;
                (head, u16::from_le_bytes([low, high]))
            }
            _ => return None,
        };
        elements.push(BlockListElement::new(number, head & 0x0F, head >> 4 & 0x07));
    }
    rest.is_empty().then_some(elements)
}

/// The codes of a request as the Rust has them.
fn codes(request: &Request) -> Vec<ServiceCode> {
    let codes = request.codes.iter();
    codes.map(|&code| ServiceCode::new(code)).collect()
}

/// A read, as `handle_secure_read` does it for both kinds of request: the blocks of all
/// elements, or the pair of the first that fails.
fn read(card: &Card, request: &Request, elements: &[BlockListElement]) -> Told {
    let codes = codes(request);
    let mut read = Vec::new();
    for (index, element) in elements.iter().enumerate() {
        match doors::read_element(card.rust(), &codes, index, element, request.open) {
            Ok((code, number)) => {
                let block = doors::block(card.rust(), code.raw(), number);
                read.extend(block.expect("the element check found this block"));
            }
            Err(pair) => {
                return Told {
                    pair,
                    read: Vec::new(),
                };
            }
        }
    }
    Told { pair: DONE, read }
}

/// A write, with the length test of `handle_secure_write` for both kinds of request.
fn write(card: &Card, request: &Request, elements: &[BlockListElement]) -> Told {
    let codes = codes(request);
    let pair = if request.data.len() < elements.len() * BLOCK_SIZE {
        DATA_SHORT
    } else {
        match doors::write_elements(card.rust(), &codes, elements, &request.data, request.open) {
            Ok(()) => DONE,
            Err(pair) => pair,
        }
    };
    Told {
        pair,
        read: Vec::new(),
    }
}
