//! A marshal and a tower through the safe calls.

use uluvoli::{
    BlockInformation, Card, Cause, CodeList, Failure, Lane, Refusal, Request, BLOCK_SIZE,
    CARD_SIZE, CODE_LIST_MOST, INFORMATION_MOST, LANES, SYSTEM,
};

const MARSHAL: u16 = 0x1049;
const TOWER: u16 = 0x104b;
const CREDIT: u16 = 0x10d5;

/// A card with an area, two lanes that two services share, and a purse with limits.
fn race(arena: &mut [u8]) -> Card {
    let mut card = Card::new(0x0001, 0x1234);
    card.add_area(1, 0x1000, 0x10ff, 0x0007).unwrap();
    card.add_service(arena, 2, MARSHAL, 2, 0x0008).unwrap();
    card.add_service(arena, 2, TOWER, 2, 0x0009).unwrap();
    card.add_service(arena, 2, CREDIT, 1, 0x000a).unwrap();
    card.set_limit(200, -50, 0).unwrap();
    card
}

/// What a request is told: a status pair, and which A5 it was.
fn pair<T>(sf1: u8, sf2: u8, cause: Option<Cause>) -> Result<T, Failure> {
    Err(Failure::Pair { sf1, sf2, cause })
}

/// An open request for the first `count` blocks of a service.
fn blocks<'a>(codes: &'a [u16], count: usize) -> Request<'a> {
    const LIST: [u8; 6] = [0x80, 0, 0x80, 1, 0x80, 2];
    Request {
        open: true,
        codes,
        count: count as u32,
        list: &LIST[..2 * count],
    }
}

#[test]
fn the_tower_reads_what_the_marshal_wrote_last() {
    let (mut arena, mut staging) = ([0u8; 256], [7u8; 256]);
    let card = race(&mut arena);
    for lanes in [
        b"lane 1: LEANDER lane 2: THAMES  ",
        b"lane 1: THAMES  lane 2: LEANDER ",
    ] {
        card.write(&mut arena, &mut staging, &blocks(&[MARSHAL], 2), lanes)
            .unwrap();
        let mut out = [0u8; 2 * BLOCK_SIZE];
        card.read(&arena, &mut out, &blocks(&[TOWER], 2)).unwrap();
        assert_eq!(&out, lanes);
        assert_eq!(card.stored_block(&arena, TOWER, 1).unwrap(), &lanes[16..]);
    }
    assert_eq!(staging[..48], [0; 48]);
    assert_eq!(staging[48..], [7; 208]);
}

#[test]
fn what_fails_changes_nothing() {
    let (mut arena, mut staging) = ([0u8; 256], [0u8; 256]);
    let card = race(&mut arena);
    card.set_block(&mut arena, MARSHAL, 0, b"lane 1: LEANDER ")
        .unwrap();
    let before = arena;
    let tower = card.write(&mut arena, &mut staging, &blocks(&[TOWER], 2), &[b'x'; 32]);
    assert_eq!(tower, pair(1, 0xa5, Some(Cause::ReadOnly)));
    let short = card.write(
        &mut arena,
        &mut staging,
        &blocks(&[MARSHAL], 2),
        &[b'x'; 31],
    );
    assert_eq!(short, pair(0xff, 0xac, None));
    let beyond = card.read(&arena, &mut [0; 48], &blocks(&[TOWER], 3));
    assert_eq!(beyond, pair(3, 0xa8, None));
    let staged = card.write(
        &mut arena,
        &mut [0; 16],
        &blocks(&[MARSHAL], 2),
        &[b'x'; 32],
    );
    assert_eq!(staged, Err(Failure::Refused(Refusal(4))));
    let room = card.read(&arena, &mut [0; 31], &blocks(&[TOWER], 2));
    assert_eq!(room, Err(Failure::Refused(Refusal(5))));
    assert_eq!(arena, before);
}

#[test]
fn a_purse_stays_within_its_limits() {
    let (mut arena, mut staging) = ([0u8; 256], [0u8; 256]);
    let card = race(&mut arena);
    let mut spend = |amount: u8, id: u8| {
        let mut data = [0u8; BLOCK_SIZE];
        (data[0], data[12]) = (amount, id);
        card.write(&mut arena, &mut staging, &blocks(&[CREDIT], 1), &data)
    };
    assert_eq!(spend(50, 1), Ok(()));
    assert_eq!(spend(1, 2), pair(1, 0x03, None));
    assert_eq!(
        card.stored_block(&arena, CREDIT, 0).unwrap()[..4],
        (-50i32).to_le_bytes()
    );
}

#[test]
fn a_store_of_another_count_is_joined_on_a_card_that_joins() {
    let mut arena = [0u8; 256];
    let mut strict = Card::new(0x0001, 0x0000);
    let mut joining = Card::joining(0x0001, 0x0000);
    for card in [&mut strict, &mut joining] {
        card.add_service(&mut arena, 1, MARSHAL, 2, 0).unwrap();
    }
    for blocks in [0, 1, 3, u32::MAX] {
        let mut added = |card: &Card| card.clone().add_service(&mut arena, 1, TOWER, blocks, 0);
        assert_eq!(added(&strict), Err(Refusal(24)), "{blocks} blocks");
        assert_eq!(added(&joining), Ok(()), "{blocks} blocks");
    }
    joining.add_service(&mut arena, 1, TOWER, 9, 0).unwrap();
    assert_eq!(joining.total(TOWER), Ok(2));
    strict.add_service(&mut arena, 1, TOWER, 2, 0).unwrap();
}

#[test]
fn an_a5_tells_which_it_was() {
    const KEYED: u16 = 0x2048;
    const READ_ONLY: u16 = 0x204b;
    const CYCLIC: u16 = 0x30cd;
    const DIRECT: u16 = 0x4051;
    let (mut arena, mut staging) = ([0u8; 256], [0u8; 256]);
    let mut card = Card::new(0x0001, 0x0000);
    for code in [KEYED, READ_ONLY, CYCLIC, DIRECT] {
        card.add_service(&mut arena, 1, code, 2, 0).unwrap();
    }
    let mut stored = [0u8; BLOCK_SIZE];
    (stored[0], stored[4]) = (9, 2);
    card.set_block(&mut arena, DIRECT, 0, &stored).unwrap();
    stored[..8].fill(0xff);
    card.set_block(&mut arena, DIRECT, 1, &stored).unwrap();
    let mut told = |code: u16, list: [u8; 2], purse: u8, cashback: u8| {
        let mut data = [0u8; BLOCK_SIZE];
        (data[0], data[4], data[12]) = (purse, cashback, 1);
        let request = Request {
            open: true,
            codes: &[code],
            count: 1,
            list: &list,
        };
        card.write(&mut arena, &mut staging, &request, &data)
    };
    let a5 = |cause| pair(1, 0xa5, Some(cause));
    assert_eq!(told(KEYED, [0x80, 0], 0, 0), a5(Cause::KeyNeeded));
    assert_eq!(told(READ_ONLY, [0x80, 0], 0, 0), a5(Cause::ReadOnly));
    assert_eq!(told(DIRECT, [0x90, 0], 0, 0), a5(Cause::NoCashback));
    assert_eq!(told(CYCLIC, [0x80, 1], 0, 0), a5(Cause::CyclicBlock));
    assert_eq!(told(DIRECT, [0x80, 0], 10, 9), a5(Cause::PurseRaised));
    assert_eq!(told(DIRECT, [0x80, 0], 9, 3), a5(Cause::CashbackRaised));
    assert_eq!(told(DIRECT, [0x80, 1], 0, 1), a5(Cause::SumTooLarge));
    assert_eq!(told(DIRECT, [0x80, 0], 9, 2), Ok(()));
}

#[test]
fn the_tree_answers() {
    let mut arena = [0u8; 256];
    let card = race(&mut arena);
    let mut pairs = [0u16; 10];
    assert_eq!(card.directory(&mut pairs), Ok(5));
    assert_eq!(
        pairs,
        [0, 0xfffe, 0x1000, 0x10ff, MARSHAL, 0xffff, TOWER, 0xffff, CREDIT, 0xffff]
    );
    assert_eq!(card.directory(&mut pairs[..9]), Err(Refusal(5)));
    assert_eq!(card.total(0x1000), Ok(5));
    assert_eq!(
        [card.key_version(SYSTEM), card.key_version(TOWER)],
        [Ok(0x1234), Ok(0x0009)]
    );
    assert_eq!(
        [card.area_list(&[0, 0x1000]), card.area_list(&[])],
        [Ok(true), Ok(false)]
    );
    assert_eq!(
        [
            card.service_list(&[SYSTEM, TOWER]),
            card.service_list(&[TOWER])
        ],
        [Ok(true), Ok(false)]
    );
}

/// The block of a lane of race 7.
fn drawn(lane: u8, crew: &str) -> [u8; BLOCK_SIZE] {
    let mut block = [b' '; BLOCK_SIZE];
    block[..3].copy_from_slice(&[lane, 7, 0]);
    block[3..][..crew.len()].copy_from_slice(crew.as_bytes());
    block[15] = 0;
    block
}

/// A card with eight lanes, of which these are filled.
fn lanes(arena: &mut [u8], crews: &[(u8, &str)]) -> Card {
    let mut card = Card::new(0x0001, 0x0000);
    card.add_service(arena, 1, MARSHAL, LANES as u32, 0)
        .unwrap();
    card.add_service(arena, 1, TOWER, LANES as u32, 0).unwrap();
    for &(lane, crew) in crews {
        card.set_block(arena, MARSHAL, u32::from(lane) - 1, &drawn(lane, crew))
            .unwrap();
    }
    card
}

#[test]
fn a_board_shows_the_last_redraw() {
    let (mut arena, mut staging) = ([0u8; 128], [0u8; 128]);
    let card = lanes(&mut arena, &[(1, "LEANDER"), (2, " A  B"), (8, "")]);
    let lane = |crew: &str| {
        Some(Lane {
            race: 7,
            crew: crew.into(),
        })
    };
    let mut board = [const { None }; LANES];
    (board[0], board[1], board[7]) = (lane("LEANDER"), lane(" A  B"), lane(""));
    assert_eq!(card.board(&arena, TOWER), Ok(board.clone()));
    let redraw = [drawn(1, "TWELVE BYTES"), [0; BLOCK_SIZE]].concat();
    card.write(&mut arena, &mut staging, &blocks(&[MARSHAL], 2), &redraw)
        .unwrap();
    (board[0], board[1]) = (lane("TWELVE BYTES"), None);
    assert_eq!(card.board(&arena, TOWER), Ok(board));
}

#[test]
fn a_board_is_refused() {
    let mut arena = [0u8; 128];
    let card = lanes(&mut arena, &[(1, "LEANDER"), (2, "THAMES")]);
    let mut after = |lane: u32, byte: usize, value: u8| {
        let mut block = drawn(lane as u8, "THAMES");
        block[byte] = value;
        card.set_block(&mut arena, MARSHAL, lane - 1, &block)
            .unwrap();
        card.board(&arena, TOWER)
    };
    let refused = |number| Err(Failure::Refused(Refusal(number)));
    assert_eq!(after(2, 2, 1), refused(40));
    assert_eq!(after(3, 15, 1), refused(43));
    assert_eq!(after(2, 14, 0), refused(42));
    assert_eq!(after(1, 0, 2), refused(41));
    let unknown = card.board(&arena, CREDIT);
    assert_eq!(unknown, pair(1, 0xa6, None));
    assert_eq!(card.board(&arena[..127], TOWER), refused(7));
    let mut few = [0u8; 128];
    let short = race(&mut few).board(&few, TOWER);
    assert_eq!(short, pair(3, 0xa8, None));
    let broken = Card::from_bytes([0; CARD_SIZE]).board(&few, TOWER);
    assert_eq!(broken, refused(8));
}

#[test]
fn packets_tell_every_child_once() {
    let mut arena = [0u8; 256];
    let mut card = race(&mut arena);
    for k in 0..16 {
        card.add_area(1, 0x2000 + 64 * k, 0x203f + 64 * k, 0)
            .unwrap();
    }
    card.add_service(&mut arena, 1, 0x4009, 3, 0).unwrap();
    let mut out = [7u8; CODE_LIST_MOST + 1];
    let mut packet = |number, room: usize| {
        let bytes = card.code_list(0, number, &mut out[..room])?;
        assert_eq!(out[bytes..], [7; CODE_LIST_MOST + 1][bytes..]);
        let list = CodeList::from_bytes(&out[..bytes]);
        out = [7; CODE_LIST_MOST + 1];
        list
    };
    let first = packet(0, CODE_LIST_MOST).unwrap();
    assert_eq!((first.more, first.areas.len()), (true, 16));
    assert_eq!(first.areas[0], (0x1000, 0x10ff));
    assert_eq!(first.areas[15], (0x2380, 0x23bf));
    let second = CodeList {
        more: false,
        areas: vec![(0x23c0, 0x23ff)],
        services: vec![0x4009],
    };
    assert_eq!(packet(1, 9), Ok(second));
    assert_eq!(packet(1, 8), Err(Refusal(5)));
    assert_eq!(packet(2, 0), Err(Refusal(45)));
    assert_eq!(card.code_list(MARSHAL, 0, &mut []), Err(Refusal(44)));
    assert_eq!(card.code_list(SYSTEM, 0, &mut []), Err(Refusal(44)));
}

#[test]
fn block_information_is_told_for_each_node() {
    let mut arena = [0u8; 256];
    let card = race(&mut arena);
    let mut out = [0u8; INFORMATION_MOST];
    let asked = [0, 0x1000, MARSHAL, TOWER, CREDIT, 0x9000, SYSTEM];
    let bytes = card.block_information(&arena, &asked, &mut out).unwrap();
    let told = BlockInformation {
        assigned: vec![5, 5, 2, 2, 1, 0, 0],
        free: vec![13, 13, 0, 0, 0, 0, 0],
    };
    assert_eq!(BlockInformation::from_bytes(&out[..bytes]), Ok(told));
    let mut refused = |arena: &[u8], asked: &[u16], room: usize| {
        card.block_information(arena, asked, &mut out[..room])
            .unwrap_err()
    };
    assert_eq!(refused(&arena, &asked, 28), Refusal(5));
    assert_eq!(refused(&arena, &[0; 33], 0), Refusal(46));
    assert_eq!(refused(&arena[..47], &[0; 33], 0), Refusal(7));
}

#[test]
fn bytes_that_are_no_message_are_refused() {
    let list = CodeList::from_bytes(&[1, 0, 0]).unwrap();
    assert_eq!((list.more, list.areas.len()), (true, 0));
    let mut most = [0u8; CODE_LIST_MOST];
    most[1] = 16;
    assert!(CodeList::from_bytes(&most).is_ok());
    for bytes in [
        &[][..],
        &[0, 0],
        &[2, 0, 0],
        &[0, 0, 0, 0],
        &[0, 0, 1],
        &[0, 17, 0],
    ] {
        assert_eq!(CodeList::from_bytes(bytes), Err(Refusal(47)));
    }
    assert_eq!(
        BlockInformation::from_bytes(&[0]),
        Ok(BlockInformation::default())
    );
    assert!(BlockInformation::from_bytes(&[[32].as_slice(), &[0; 128]].concat()).is_ok());
    for bytes in [&[][..], &[1, 0, 0, 0], &[0, 0], &[33; 133]] {
        assert_eq!(BlockInformation::from_bytes(bytes), Err(Refusal(47)));
    }
}

#[test]
fn bytes_that_no_calls_build_are_refused() {
    let mut arena = [0u8; 256];
    let card = race(&mut arena);
    assert_eq!(Card::from_bytes(*card.as_bytes()), card);
    for place in [0, 2, 12, 13, 22, 23, 32, 33, 160, 288] {
        let mut bytes = *card.as_bytes();
        bytes[place] ^= 0x40;
        let mut broken = Card::from_bytes(bytes);
        assert_eq!(broken.total(0), Err(Refusal(8)), "byte {place}");
        assert_eq!(broken.add_area(1, 0x2000, 0x20ff, 0), Err(Refusal(8)));
        assert_eq!(broken.as_bytes(), &bytes);
    }
    let mut bytes = *card.as_bytes();
    bytes[CARD_SIZE - 1] ^= 0x40;
    assert_eq!(Card::from_bytes(bytes).total(0), card.total(0));
    assert_eq!(
        card.clone().add_area(1, 0x10ff, 0x1000, 0),
        Err(Refusal(14))
    );
}
