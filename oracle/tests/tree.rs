//! A card grown addition by addition: every refusal by its smallest input, their order, joined
//! stores, and what the Rust does differently.

use uluvoli_oracle::felica_standard::ServiceCode;
use uluvoli_oracle::felica_standard::emulator::{
    EmulatedService, EmulatedSystem, EmulatorConfigError, LimitPurseProperty,
};
use uluvoli_oracle::refusal::Refusal;
use uluvoli_oracle::tree::{Addition, Card, usable};

/// An arena that no card can outgrow.
const WHOLE: usize = 65_536;

/// An area with key version 0.
fn area(depth: u32, code: u16, end: u16) -> Addition {
    Addition::Area {
        depth,
        code,
        end,
        version: 0,
    }
}

/// A service with key version 0.
fn service(depth: u32, code: u16, blocks: u32) -> Addition {
    Addition::Service {
        depth,
        code,
        blocks,
        version: 0,
    }
}

/// A limit; its values do not matter here.
fn limit() -> Addition {
    Addition::Limit(LimitPurseProperty::default())
}

/// A card that joins, of these additions, all of which are accepted.
fn card(additions: &[Addition]) -> Card {
    grown(true, additions)
}

/// A card of these additions, all of which are accepted.
fn grown(join: bool, additions: &[Addition]) -> Card {
    let mut card = Card::new(0x0001, 0x0000, join);
    for &addition in additions {
        assert_eq!(card.add(WHOLE, addition), Ok(()), "{addition:04X?}");
    }
    card
}

/// The card refuses the addition with this number, and then has the nodes and blocks it had.
fn refuses(mut card: Card, arena: usize, addition: Addition, number: Refusal) {
    let (nodes, used) = (card.nodes().to_vec(), card.used());
    let directory = card.directory(128);
    assert_eq!(card.add(arena, addition), Err(number), "{addition:04X?}");
    assert_eq!(card.nodes(), nodes);
    assert_eq!(card.used(), used);
    assert_eq!(card.directory(128), directory);
}

/// A card with all 64 nodes.
fn full() -> Card {
    card(&vec![service(1, 0x1049, 1); 63])
}

/// Each refusal of an area, on a card without or with one area before it.
#[test]
fn areas_refused() {
    let empty = || card(&[]);
    refuses(full(), WHOLE, area(1, 0x0100, 0x01FF), 20);
    refuses(empty(), WHOLE, area(0, 0x0100, 0x01FF), 21);
    refuses(empty(), WHOLE, area(2, 0x0100, 0x01FF), 21);
    refuses(empty(), WHOLE, area(u32::MAX, 0x0100, 0x01FF), 21);
    refuses(empty(), WHOLE, area(1, 0xFFFF, 0xFFFE), 13);
    refuses(empty(), WHOLE, area(1, 0x0000, 0xFFFF), 13);
    refuses(empty(), WHOLE, area(1, 0x0000, 0xFFFD), 12);
    refuses(empty(), WHOLE, area(1, 0x0102, 0x01FF), 14);
    refuses(empty(), WHOLE, area(1, 0x0100, 0x00FF), 11);
    let forbids = card(&[area(1, 0x0101, 0x01FF)]);
    refuses(forbids, WHOLE, area(2, 0x0140, 0x01FF), 15);
    let allows = || card(&[area(1, 0x0100, 0x01FF)]);
    refuses(allows(), WHOLE, area(2, 0x00C0, 0x01FF), 18);
    refuses(allows(), WHOLE, area(2, 0x0100, 0x0200), 18);
}

/// Each refusal of a service.
#[test]
fn services_refused() {
    let one = || card(&[service(1, 0x1048, 1)]);
    refuses(one(), 15, service(1, 0x1049, 1), 7);
    refuses(full(), WHOLE, service(1, 0x1049, 1), 20);
    refuses(one(), WHOLE, service(2, 0x1049, 1), 21);
    refuses(one(), WHOLE, service(1, 0xFFFF, 1), 13);
    refuses(one(), WHOLE, service(1, 0x1047, 1), 16);
    refuses(one(), WHOLE, service(1, 0x1058, 1), 16);
    let narrow = || card(&[area(1, 0x0100, 0x0149)]);
    refuses(narrow(), WHOLE, service(2, 0x00C8, 1), 17);
    refuses(narrow(), WHOLE, service(2, 0x014A, 1), 17);
    refuses(one(), WHOLE, service(1, 0x104C, 1), 19);
    refuses(one(), 47, service(1, 0x1088, 2), 22);
    refuses(one(), WHOLE, service(1, 0x1088, 4_096), 22);
    refuses(one(), WHOLE, service(1, 0x1088, u32::MAX), 22);
}

/// A limit is refused when the node added last is no service, the root included.
#[test]
fn limits_refused() {
    refuses(card(&[]), WHOLE, limit(), 28);
    refuses(card(&[area(1, 0x0100, 0x01FF)]), WHOLE, limit(), 28);
    card(&[service(1, 0x1048, 1), limit(), limit()]);
}

/// What meets several tests is refused by the first of them.
#[test]
fn order_of_refusals() {
    let one = || card(&[service(1, 0x1048, 1)]);
    refuses(full(), 15, service(9, 0xFFFF, u32::MAX), 7);
    refuses(full(), WHOLE, service(9, 0xFFFF, u32::MAX), 20);
    refuses(one(), WHOLE, service(9, 0xFFFF, u32::MAX), 21);
    refuses(one(), WHOLE, service(1, 0xFFFF, u32::MAX), 13);
    let narrow = card(&[service(1, 0x1048, 1), area(1, 0x0100, 0x01FF)]);
    refuses(narrow, WHOLE, service(2, 0x1047, u32::MAX), 16);
    let narrow = card(&[service(1, 0x1048, 1), area(1, 0x0100, 0x01FF)]);
    refuses(narrow, WHOLE, service(2, 0x104C, u32::MAX), 17);
    refuses(one(), WHOLE, service(1, 0x104C, u32::MAX), 19);
    refuses(full(), WHOLE, area(0, 0xFFFF, 0xFFFF), 20);
    refuses(one(), WHOLE, area(0, 0xFFFF, 0xFFFF), 21);
    let forbids = || card(&[area(1, 0x0101, 0x01FF)]);
    refuses(forbids(), WHOLE, area(2, 0x0002, 0xFFFF), 13);
    refuses(forbids(), WHOLE, area(2, 0x0000, 0x0000), 12);
    refuses(forbids(), WHOLE, area(2, 0x0042, 0x0000), 14);
    refuses(forbids(), WHOLE, area(2, 0x0040, 0x0000), 11);
    refuses(forbids(), WHOLE, area(2, 0x0040, 0x0080), 15);
}

/// A parent is the latest node of depth one less, an area, with no shallower node after it.
#[test]
fn parents() {
    let shut = card(&[
        area(1, 0x0100, 0x01FF),
        area(2, 0x0100, 0x01FF),
        service(1, 0x1049, 1),
    ]);
    refuses(shut, WHOLE, service(3, 0x0149, 1), 21);
    let behind = card(&[area(1, 0x0100, 0x01FF), service(1, 0x1049, 1)]);
    refuses(behind, WHOLE, service(2, 0x0149, 1), 21);
    let mut deep = card(&[]);
    for depth in 1..=7 {
        assert_eq!(deep.add(WHOLE, area(depth, 0x0100, 0x01FF)), Ok(()));
    }
    assert_eq!(deep.add(WHOLE, area(8, 0x0100, 0x01FF)), Ok(()));
    assert_eq!(deep.add(WHOLE, service(8, 0x0149, 1)), Ok(()));
    assert_eq!(deep.add(WHOLE, area(8, 0x0100, 0x01FF)), Ok(()));
    refuses(deep, WHOLE, service(9, 0x0149, 1), 21);
}

/// A later service of a number joins the store, on a card that joins: its count is ignored, 22 is never met,
/// and a store of 0 blocks is joined like any other.
#[test]
fn joined_stores() {
    let mut full_arena = card(&[service(1, 0x1048, 2)]);
    assert_eq!(full_arena.add(32, service(1, 0x104B, u32::MAX)), Ok(()));
    assert_eq!(full_arena.used(), 2);
    assert_eq!(full_arena.total(0x104B), 2);
    assert_eq!(full_arena.total(0x0000), 4);
    assert_eq!(full_arena.add(32, service(1, 0x1088, 0)), Ok(()));
    assert_eq!(full_arena.add(32, service(1, 0x1089, 7)), Ok(()));
    assert_eq!(full_arena.used(), 2);
    assert_eq!(full_arena.total(0x1089), 0);
}

/// A card that does not join takes a later service of a number only with the store's own count:
/// 24 comes after 19, and 22 is not met by one that finds a store.
#[test]
fn counts_differ() {
    let two = || grown(false, &[service(1, 0x1048, 2)]);
    for blocks in [0, 1, 3, 65_538, u32::MAX] {
        refuses(two(), WHOLE, service(1, 0x104B, blocks), 24);
    }
    refuses(two(), 32, service(1, 0x104B, 3), 24);
    refuses(two(), WHOLE, service(1, 0x104C, 3), 19);
    refuses(two(), WHOLE, service(1, 0x1088, 4_095), 22);
    let none = || grown(false, &[service(1, 0x1048, 0)]);
    refuses(none(), WHOLE, service(1, 0x104B, 1), 24);
    assert_eq!(two().add(32, service(1, 0x104B, 2)), Ok(()));
    assert_eq!(none().add(0, service(1, 0x104B, 0)), Ok(()));
    assert!(!two().relies());
    assert!(card(&[service(1, 0x1048, 2), service(1, 0x104B, 5)]).relies());
}

/// Stored blocks live through later additions, in the arena's order.
#[test]
fn blocks_are_kept() {
    let mut card = card(&[service(1, 0x1048, 1), service(1, 0x0048, 2)]);
    assert_eq!(card.set_block(0x0048, 1, [0x22; 16]), Ok(()));
    assert_eq!(card.set_block(0x1048, 0, [0x11; 16]), Ok(()));
    assert_eq!(card.set_block(0x1048, 1, [0x11; 16]), Err(23));
    assert_eq!(card.set_block(0x1049, 0, [0x11; 16]), Err(23));
    assert_eq!(card.add(WHOLE, service(1, 0x1049, 5)), Ok(()));
    assert_eq!(card.add(WHOLE, limit()), Ok(()));
    assert_eq!(card.add(WHOLE, area(1, 0x0100, 0x01FF)), Ok(()));
    assert_eq!(card.arena(), [[0x11; 16], [0; 16], [0x22; 16]]);
}

/// Of an arena the whole blocks are usable, and no more than 4,096.
#[test]
fn usable_blocks() {
    for (arena, blocks) in [(0, 0), (15, 0), (16, 1), (65_535, 4_095), (65_552, 4_096)] {
        assert_eq!(usable(arena), blocks);
    }
    let mut card = card(&[]);
    assert_eq!(card.add(70_000, service(1, 0x1048, 4_096)), Ok(()));
    assert_eq!(card.add(65_535, service(1, 0x1049, 0)), Err(7));
}

/// The directory needs two numbers for each node and lists the root first.
#[test]
fn directory_room() {
    let card = card(&[area(1, 0x0100, 0x01FF), service(2, 0x0149, 1)]);
    assert_eq!(card.directory(5), Err(5));
    let pairs = [0x0000, 0xFFFE, 0x0100, 0x01FF, 0x0149, 0xFFFF];
    assert_eq!(card.directory(6).as_deref(), Ok(&pairs[..]));
    assert_eq!(card.directory(7).as_deref(), Ok(&pairs[..]));
}

/// The difference of docs/RULES.md: the Rust keeps a service that it refuses with
/// `OverlapKindMismatch`, and refuses everything after it; our card does neither.
#[test]
fn the_rust_keeps_what_it_refuses_with_19() {
    let added = |code| EmulatedService::new(ServiceCode::new(code), 1);
    let mut rust = EmulatedSystem::new(0x0001, [0; 8], [0; 8]).unwrap();
    assert!(rust.add_service(added(0x1048)).is_ok());
    for code in [0x104C, 0x1088] {
        let told = rust.add_service(added(code));
        assert!(matches!(
            told,
            Err(EmulatorConfigError::OverlapKindMismatch {
                service_code: 0x104C,
                ..
            })
        ));
    }
    assert_eq!(rust.directory().len(), 4);

    let mut ours = card(&[service(1, 0x1048, 1)]);
    assert_eq!(ours.add(WHOLE, service(1, 0x104C, 1)), Err(19));
    assert_eq!(ours.add(WHOLE, service(1, 0x1088, 1)), Ok(()));
    assert_eq!(ours.nodes().len(), 3);
}
