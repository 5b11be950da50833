//! The doors lead where they say: the list checks, totals, versions, reads and writes answer
//! on a small card as docs/RULES.md has it.

use uluvoli_oracle::felica_standard::emulator::{
    EmulatedArea, EmulatedService, EmulatedSystem, doors,
};
use uluvoli_oracle::felica_standard::{BlockListElement, ServiceCode};

/// A card with a keyed and a key-free service on one store of two blocks, and an area 0101
/// with a keyed service within.
fn card() -> EmulatedSystem {
    let mut card = EmulatedSystem::new(0x0001, [0; 8], [0; 8]).unwrap();
    card.set_system_key_version(0x0007);
    for (code, blocks) in [(0x1048, 2), (0x104B, 5), (0x1049, 9)] {
        card.add_service(EmulatedService::new(ServiceCode::new(code), blocks))
            .unwrap();
    }
    let mut area = EmulatedArea::with_key_version(0x0101, 0x0FFF, 0x0012).unwrap();
    area.add_service(EmulatedService::new(ServiceCode::new(0x0208), 3))
        .unwrap();
    card.add_area(area).unwrap();
    card
}

/// Area lists: first an area, each later one an area or FFFF, empty is no.
#[test]
fn area_lists() {
    let mut card = card();
    for (areas, expected) in [
        (&[][..], false),
        (&[0x0000], true),
        (&[0x0101], true),
        (&[0x0101, 0xFFFF, 0x0000], true),
        (&[0xFFFF], false),
        (&[0xFFFF, 0x0000], false),
        (&[0x0000, 0x0102], false),
        (&[0x0000, 0x1048], false),
        (&[0x1048], false),
    ] {
        assert_eq!(doors::area_list(&mut card, areas), expected, "{areas:04X?}");
    }
}

/// Service lists: each resolves, keyed ones first, at least one keyed.
#[test]
fn service_lists() {
    let mut card = card();
    for (services, expected) in [
        (&[][..], false),
        (&[0x1048], true),
        (&[0x1049], false),
        (&[0x1048, 0x1049], true),
        (&[0x1049, 0x1048], false),
        (&[0xFFFF], true),
        (&[0x0101], true),
        (&[0x0101, 0x104B, 0x1049], true),
        (&[0x1049, 0xFFFF], false),
        (&[0x1049, 0x0101], false),
        (&[0x1048, 0x104A], false),
    ] {
        let told = doors::service_list(&mut card, services);
        assert_eq!(told, expected, "{services:04X?}");
    }
}

/// Totals count a joined store once for each service; unknown nodes are 0 and FFFF.
#[test]
fn totals_and_versions() {
    let card = card();
    assert_eq!(doors::block_total(&card, 0x0000), 2 + 2 + 2 + 3);
    assert_eq!(doors::block_total(&card, 0x0101), 3);
    assert_eq!(doors::block_total(&card, 0x104B), 2);
    assert_eq!(doors::block_total(&card, 0x2000), 0);
    assert_eq!(doors::key_version(&card, 0xFFFF), 0x0007);
    assert_eq!(doors::key_version(&card, 0x0101), 0x0012);
    assert_eq!(doors::key_version(&card, 0x104B), 0x0000);
    assert_eq!(doors::key_version(&card, 0x2000), 0xFFFF);
}

/// The whole case of docs/RULES.md: a write by one service is read by another that joins it.
#[test]
fn whole_case() {
    let card = card();
    let writer = [ServiceCode::new(0x1049)];
    let reader = [ServiceCode::new(0x104B)];
    let second = BlockListElement::new(1, 0, 0);
    let third = BlockListElement::new(2, 0, 0);
    let told = doors::write_elements(&card, &writer, &[second], &[0x11; 16], true);
    assert_eq!(told, Ok(()));
    let told = doors::read_element(&card, &reader, 0, &second, true);
    assert_eq!(told, Ok((reader[0], 1)));
    assert_eq!(doors::store_of(&card, 0x104B).unwrap()[1], [0x11; 16]);
    let told = doors::read_element(&card, &reader, 0, &third, true);
    assert_eq!(told, Err((1, 0xA8)));
    assert!(doors::set_block(&card, 0x1048, 0, [0x22; 16]));
    assert!(!doors::set_block(&card, 0x1048, 2, [0x22; 16]));
    assert!(!doors::set_block(&card, 0x2008, 0, [0x22; 16]));
    assert_eq!(doors::store_of(&card, 0x1049).unwrap()[0], [0x22; 16]);
}
