//! Requests on small cards: our refusals and their order, the length test, and the answers that
//! docs/RULES.md spells out.

use uluvoli_oracle::felica_standard::BlockListElement;
use uluvoli_oracle::felica_standard::emulator::LimitPurseProperty;
use uluvoli_oracle::felica_standard::emulator::doors::{Block, Pair};
use uluvoli_oracle::refusal::Refusal;
use uluvoli_oracle::request::{Request, serve, unpack};
use uluvoli_oracle::tree::{Addition, Card};

/// An arena and a room that are long enough for everything.
const WHOLE: usize = 65_536;

/// A card with these services, code and block count each, below the root.
fn card(services: &[(u16, u32)]) -> Card {
    let mut card = Card::new(0x0001, 0x0000, true);
    for &(code, blocks) in services {
        let service = Addition::Service {
            depth: 1,
            code,
            blocks,
            version: 0,
        };
        assert_eq!(card.add(WHOLE, service), Ok(()));
    }
    card
}

/// An open read of these elements.
fn read(codes: &[u16], count: u32, list: &[u8]) -> Request {
    Request {
        write: false,
        open: true,
        codes: codes.to_vec(),
        count,
        list: list.to_vec(),
        data: Vec::new(),
    }
}

/// An open write of one block to each of these elements.
fn write(codes: &[u16], list: &[u8], blocks: &[Block]) -> Request {
    Request {
        write: true,
        count: blocks.len() as u32,
        data: blocks.concat(),
        ..read(codes, 0, list)
    }
}

/// What the card tells the request: the pair and the bytes read, or a refusal.
fn told(card: &mut Card, request: &Request) -> Result<(Pair, Vec<u8>), Refusal> {
    serve(card, WHOLE, WHOLE, request).map(|told| (told.pair, told.read))
}

/// The pair that the card gives.
fn pair(card: &mut Card, request: &Request) -> Pair {
    told(card, request).unwrap().0
}

/// A purse block with this purse, cashback and execution id.
fn purse(purse: u32, cashback: u32, id: u8) -> Block {
    let mut block = [0xEE; 16];
    block[..4].copy_from_slice(&purse.to_le_bytes());
    block[4..8].copy_from_slice(&cashback.to_le_bytes());
    block[12..].fill(id);
    block
}

/// Lists are two bytes an element with the top bit set, three without, and no more nor less.
#[test]
fn lists() {
    assert_eq!(unpack(&[], 0), Some(vec![]));
    let two = BlockListElement::new(0x05, 3, 1);
    let three = BlockListElement::new(0x0105, 3, 7);
    assert_eq!(unpack(&[0x93, 0x05], 1), Some(vec![two]));
    let both = [0x93, 0x05, 0x73, 0x05, 0x01];
    assert_eq!(unpack(&both, 2), Some(vec![two, three]));
    assert_eq!(unpack(&both, 1), None);
    assert_eq!(unpack(&both, 3), None);
    assert_eq!(unpack(&both[..4], 2), None);
    assert_eq!(unpack(&[0x00, 0x05], 1), None);
    assert_eq!(unpack(&[0x80], 1), None);
    assert_eq!(unpack(&[0x80], 0), None);
}

/// Refusals come in the order 1, 2, 3, 7, then 4 for a write and 5 for a read, all of them
/// ahead of FF AC.
#[test]
fn refusals() {
    let mut card = card(&[(0x1049, 2)]);
    let mut ask = |arena, room, request: &Request| serve(&mut card, arena, room, request).err();
    let codes = [0x1049; 17];
    let many = read(&codes, 513, &[]);
    assert_eq!(ask(0, 0, &many), Some(1));
    assert_eq!(ask(0, 0, &read(&codes, 512, &[])), Some(2));
    assert_eq!(ask(0, 0, &read(&codes[..16], 512, &[])), Some(3));
    assert_eq!(ask(31, 0, &read(&codes[..16], 1, &[0x80, 0])), Some(7));
    assert_eq!(ask(32, 15, &read(&codes[..16], 1, &[0x80, 0])), Some(5));
    assert_eq!(ask(32, 16, &read(&codes[..16], 1, &[0x80, 0])), None);
    let mut short = write(&codes[..16], &[0x80, 0], &[[0; 16]]);
    short.data.pop();
    assert_eq!(ask(31, 0, &short), Some(7));
    assert_eq!(ask(32, 31, &short), Some(4));
    assert_eq!(ask(32, 32, &short), None);
}

/// Data shorter than 16 bytes for each element are FF AC, ahead of all elements, in both kinds
/// of write; surplus is ignored.
#[test]
fn data_length() {
    let mut card = card(&[(0x1049, 2)]);
    for open in [true, false] {
        let mut request = write(&[], &[0x80, 0], &[[7; 16]]);
        request.open = open;
        assert_eq!(pair(&mut card, &request), (1, 0xA3));
        request.data.truncate(15);
        assert_eq!(pair(&mut card, &request), (0xFF, 0xAC));
    }
    let mut surplus = write(&[0x1049], &[0x80, 0], &[[7; 16]]);
    surplus.data.push(0);
    assert_eq!(pair(&mut card, &surplus), (0, 0));
    assert_eq!(card.arena()[0], [7; 16]);
    assert_eq!(pair(&mut card, &write(&[], &[], &[])), (0, 0));
}

/// The element check gives its bytes in the order of docs/RULES.md.
#[test]
fn elements() {
    let mut card = card(&[(0x1048, 2), (0x104B, 2), (0x2053, 1), (0x2051, 1)]);
    let codes = [0x1048, 0x104B, 0x2053, 0x2051, 0x3009, 0x3000, 0xFFFF];
    let mut reads = |list: &[u8]| pair(&mut card, &read(&codes, 1, list)).1;
    assert_eq!(reads(&[0x97, 9]), 0xA3);
    assert_eq!(reads(&[0x96, 9]), 0xA7);
    assert_eq!(reads(&[0x86, 9]), 0xA4);
    assert_eq!(reads(&[0x85, 9]), 0xA4);
    assert_eq!(reads(&[0x84, 9]), 0xA6);
    assert_eq!(reads(&[0x80, 9]), 0xA5);
    assert_eq!(reads(&[0x81, 9]), 0xA8);
    assert_eq!(reads(&[0x01, 0, 1]), 0xA8);
    assert_eq!(reads(&[0x01, 1, 0]), 0x00);
    let mut writes = |list: &[u8]| pair(&mut card, &write(&codes, list, &[[0; 16]])).1;
    assert_eq!(writes(&[0xA1, 9]), 0xA7);
    assert_eq!(writes(&[0x90, 9]), 0xA5);
    assert_eq!(writes(&[0x81, 9]), 0xA5);
    assert_eq!(writes(&[0x93, 9]), 0xA5);
    assert_eq!(writes(&[0x92, 9]), 0xA8);
    assert_eq!(writes(&[0x92, 0]), 0x00);
}

/// SF1 is the element's place, and 255 from the 255th on.
#[test]
fn places() {
    let mut card = card(&[(0x1049, 1)]);
    for (wrong, place) in [(0, 1), (253, 254), (254, 255), (300, 255), (511, 255)] {
        let mut list = [0x80, 0].repeat(512);
        list[2 * wrong + 1] = 1;
        let request = read(&[0x1049], 512, &list);
        assert_eq!(told(&mut card, &request), Ok(((place, 0xA8), vec![])));
    }
}

/// A run goes by service number, so a cyclic store sees blocks of joined services as one; a run
/// of another number parts two runs.
#[test]
fn runs() {
    let [p, q, r, s] = [[1; 16], [2; 16], [3; 16], [4; 16]];
    let services = [(0x104D, 3), (0x104C, 9), (0x2009, 1)];
    let session = |mut request: Request| {
        request.open = false;
        request
    };
    let codes = [0x104D, 0x104C, 0x2009];
    let mut one = card(&services);
    let joined = session(write(&codes, &[0x80, 0, 0x81, 0], &[p, q]));
    assert_eq!(pair(&mut one, &joined), (0, 0));
    assert_eq!(one.arena()[..3], [p, q, [0; 16]]);
    assert_eq!(pair(&mut one, &joined), (0, 0));
    assert_eq!(one.arena()[..3], [p, q, [0; 16]]);
    let long = session(write(
        &codes,
        &[0x82, 0, 0x80, 0, 0x81, 0, 0x80, 0, 0x80, 0],
        &[r; 5],
    ));
    assert_eq!(pair(&mut one, &long), (2, 0xAF));
    let parted = [0x80, 0, 0x80, 0, 0x82, 0, 0x80, 0, 0x81, 0];
    let parted = session(write(&codes, &parted, &[r, s, p, q, p]));
    assert_eq!(pair(&mut one, &parted), (0, 0));
    assert_eq!(one.arena(), [q, p, r, p]);
    let later = session(write(&codes, &[0x82, 0, 0x80, 0, 0x80, 1], &[[9; 16]; 3]));
    assert_eq!(pair(&mut one, &later), (3, 0xA5));
    assert_eq!(one.arena(), [q, p, r, p]);
}

/// One run may read a block unsigned by one service and signed by another; a repeated code's
/// later limit is never read.
#[test]
fn limits() {
    let mut card = card(&[(0x2055, 1)]);
    let limit = |upper_limit, lower_limit| {
        Addition::Limit(LimitPurseProperty {
            upper_limit,
            lower_limit,
            generation_number: 0,
        })
    };
    let service = |code| Addition::Service {
        depth: 1,
        code,
        blocks: 1,
        version: 0,
    };
    for addition in [
        service(0x2053),
        limit(200, -50),
        service(0x2055),
        limit(0, 0),
    ] {
        assert_eq!(card.add(WHOLE, addition), Ok(()));
    }
    assert_eq!(card.set_block(0x2055, 0, purse(100, 0, 0)), Ok(()));
    let codes = [0x2055, 0x2053];
    let both = write(
        &codes,
        &[0x80, 0, 0x81, 0],
        &[purse(100, 0, 1), purse(50, 0, 2)],
    );
    assert_eq!(pair(&mut card, &both), (0, 0));
    assert_eq!(card.arena()[0][..8], [0xCE, 0xFF, 0xFF, 0xFF, 50, 0, 0, 0]);
    let below = write(&codes, &[0x81, 0], &[purse(1, 0, 3)]);
    assert_eq!(pair(&mut card, &below), (1, 0x03));
    let unsigned = write(&codes, &[0x80, 0], &[purse(0xFFFF_FFCE, 0, 3)]);
    assert_eq!(pair(&mut card, &unsigned), (0, 0));
}
