//! The rows of the table: on which card, and what is asked of it.

use uluvoli_oracle::felica_standard::emulator::doors::{Block, Pair};
use uluvoli_oracle::request::Request;
use uluvoli_oracle::tree::Addition;

/// One row. Requests go by turns with one data and the other, so that a write changes something
/// each time.
pub struct Row {
    pub name: String,
    pub card: Vec<Addition>,
    /// A block that is set beforehand.
    pub set: Option<(u16, Block)>,
    pub request: Request,
    pub other: Vec<u8>,
    /// What every one of these requests is told.
    pub pair: Pair,
}

/// The services of the small card, beside an area: ring, purse, read-only, and lanes last.
const RING: u16 = 0x100D;
const PURSE: u16 = 0x1055;
const RESULTS: u16 = 0x108B;
const LANES: u16 = 0x10C9;

/// How many blocks each service has, where nothing else is said.
const BLOCKS: u32 = 8;

/// An area of these codes, then its services with their counts of blocks.
fn area(code: u16, end: u16, services: impl Iterator<Item = (u16, u32)>) -> Vec<Addition> {
    let area = Addition::Area {
        depth: 1,
        code,
        end,
        version: 0,
    };
    let service = |(code, blocks)| Addition::Service {
        depth: 2,
        code,
        blocks,
        version: 0,
    };
    std::iter::once(area).chain(services.map(service)).collect()
}

/// A card with one area, which holds all the services.
fn card(services: impl Iterator<Item = (u16, u32)>) -> Vec<Addition> {
    area(0x1000, 0x2FFF, services)
}

/// A card of six nodes, the last of which has this many blocks.
fn small(lanes: u32) -> Vec<Addition> {
    let services = [RING, PURSE, RESULTS].map(|code| (code, BLOCKS));
    card(services.into_iter().chain([(LANES, lanes)]))
}

/// The code of a service of a card of many: random, with no key.
fn of_many(at: usize) -> u16 {
    0x1009 + 64 * at as u16
}

/// A card with so many services, beside its root and an area.
fn many(services: usize) -> Vec<Addition> {
    card((0..services).map(|at| (of_many(at), BLOCKS)))
}

/// A full card whose services stand in falling order of their numbers.
fn falling() -> Vec<Addition> {
    card((0..62).rev().map(|at| (of_many(at), BLOCKS)))
}

/// The code of a service of a card of pairs: seven numbers to an area, each with a service that writes and one that only reads.
fn of_pairs(area: u16, at: u16) -> u16 {
    0x1009 + 0x400 * area + 64 * (at / 2) + 2 * (at % 2)
}

/// A card of 61 nodes: four areas with seven pairs of services each, a pair on one store.
fn pairs() -> Vec<Addition> {
    let services = |of| (0..14).map(move |at| (of_pairs(of, at), BLOCKS));
    let one = |of| area(0x1000 + 0x400 * of, 0x13FF + 0x400 * of, services(of));
    (0..4).flat_map(one).collect()
}

/// An element as a list has it: a number over 255 takes three bytes.
fn packed(&(index, number): &(u8, u16)) -> Vec<u8> {
    match number.to_le_bytes() {
        [low, 0] => vec![0x80 | index, low],
        [low, high] => vec![index, low, high],
    }
}

/// A request of these elements, each an index into the codes and a number. A write sends each
/// element blocks of one byte, by turns this and the next.
fn row(name: &str, card: Vec<Addition>, write: bool, codes: &[u16], elements: &[(u8, u16)]) -> Row {
    let data = |byte: u8| match write {
        true => vec![byte; 16 * elements.len()],
        false => Vec::new(),
    };
    Row {
        name: name.to_string(),
        card,
        set: None,
        request: Request {
            write,
            open: true,
            codes: codes.to_vec(),
            count: elements.len() as u32,
            list: elements.iter().flat_map(packed).collect(),
            data: data(1),
        },
        other: data(2),
        pair: (0, 0),
    }
}

/// A read and a write of the same elements.
fn both(name: &str, card: Vec<Addition>, codes: &[u16], elements: &[(u8, u16)]) -> [Row; 2] {
    [(false, "read"), (true, "write")].map(|(write, kind)| {
        row(
            &format!("{kind} {name}"),
            card.clone(),
            write,
            codes,
            elements,
        )
    })
}

/// One element of a card's last service that writes: on a small card, on full ones, and on one of several areas.
fn single() -> impl Iterator<Item = Row> {
    let one = |name, card, code| both(name, card, &[code], &[(0, 3)]);
    let small = one("1, 6 nodes", small(BLOCKS), LANES);
    let full = one("1, 64 nodes", many(62), of_many(61));
    let falling = one("1, 64 nodes, numbers fall", falling(), of_many(0));
    let pairs = one("1, 61 nodes, pairs in four areas", pairs(), of_pairs(3, 12));
    [small, full, falling, pairs].into_iter().flatten()
}

/// Twelve elements over the last eight services of a card.
fn dozen(name: &str, services: usize) -> [Row; 2] {
    let codes: Vec<u16> = (services - 8..services).map(of_many).collect();
    let elements: Vec<(u8, u16)> = (0..12).map(|at| (at as u8 % 8, at % 5)).collect();
    both(name, many(services), &codes, &elements)
}

/// 512 elements: of one store that has as many blocks, and over the last eight services of a full card.
fn long() -> impl Iterator<Item = Row> {
    let each: Vec<(u8, u16)> = (0..512).map(|at| (0, at)).collect();
    let spread: Vec<(u8, u16)> = (0..512).map(|at| ((at / 8 % 8) as u8, at % 8)).collect();
    let codes: Vec<u16> = (54..62).map(of_many).collect();
    let one = both("512, 6 nodes", small(512), &[LANES], &each);
    let eight = both("512 over 8, 64 nodes", many(62), &codes, &spread);
    one.into_iter().chain(eight)
}

/// A purse block: what it holds or is to lose, and the execution id.
fn purse(value: u32, id: u8) -> Block {
    let mut block = [0; 16];
    block[..4].copy_from_slice(&value.to_le_bytes());
    block[12] = id;
    block
}

/// Writes by the other rules: three blocks into a ring, and 1 off a purse.
fn ruled() -> [Row; 2] {
    let ring = row("write 3, ring", small(BLOCKS), true, &[RING], &[(0, 0); 3]);
    let mut off = row("write 1, purse", small(BLOCKS), true, &[PURSE], &[(0, 0)]);
    off.set = Some((PURSE, purse(u32::MAX, 0)));
    off.request.data = purse(1, 1).to_vec();
    off.other = purse(1, 2).to_vec();
    [ring, off]
}

/// Writes of twelve elements that are not carried out: the last names a read-only service, or takes from an empty purse.
fn refused() -> [Row; 2] {
    [(RESULTS, 0xA5, "read-only"), (PURSE, 0x01, "empty purse")].map(|(last, sf2, why)| {
        let mut elements: Vec<(u8, u16)> = (0..11).map(|at| (0, at % 8)).collect();
        elements.push((1, 0));
        let name = format!("write 12, last refused: {why}");
        let mut row = row(&name, small(BLOCKS), true, &[LANES, last], &elements);
        row.pair = (12, sf2);
        row
    })
}

/// All rows, in the table's order.
pub fn all() -> Vec<Row> {
    single()
        .chain(dozen("12 over 8, 10 nodes", 8))
        .chain(dozen("12 over 8, 64 nodes", 62))
        .chain(long())
        .chain(ruled())
        .chain(refused())
        .collect()
}
