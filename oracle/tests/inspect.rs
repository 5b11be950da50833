//! Inspect prints what docs/RULES.md and the readings settled for it say; its lists are the Rust's tree.

use std::collections::BTreeSet;
use uluvoli_oracle::draw::additions::{self, Habit, Stores};
use uluvoli_oracle::draw::codes;
use uluvoli_oracle::felica_standard::emulator::{DirectoryEntry, doors};
use uluvoli_oracle::felica_standard::{
    AreaCodeRange, RequestBlockInformationExResult, RequestCodeListResult, ServiceCode,
};
use uluvoli_oracle::inspect::line::{Kind, kind};
use uluvoli_oracle::inspect::lists::{block_information, code_list};
use uluvoli_oracle::inspect::{inspect, message};
use uluvoli_oracle::inspections::{self, met};
use uluvoli_oracle::random::Random;
use uluvoli_oracle::replay::{lines, replay};
use uluvoli_oracle::tree::{Card, Entry};

/// An arena that no card can outgrow.
const WHOLE: usize = 65_536;

/// Each text that has a name prints what stands beside it, and no name comes twice.
#[test]
fn named() {
    let mut names = BTreeSet::new();
    for case in inspections::named() {
        let printed = inspect(case.text.replace('|', "\t").as_bytes());
        assert_eq!(printed, case.told.replace('|', "\t"), "{}", case.name);
        assert!(names.insert(case.name), "{}", case.name);
    }
    assert!(names.len() > 90);
}

/// A text of an image and then requests, without any other line, is answered as in replay.
#[test]
fn as_in_replay() {
    let (texts, _) = uluvoli_oracle::texts::all(1_500, 2);
    let mut compared = 0;
    for text in texts {
        let mut lines = lines(&text.input).map(|(_, line)| line).peekable();
        while lines
            .next_if(|line| matches!(kind(line), Kind::Image))
            .is_some()
        {}
        if lines.all(|line| matches!(kind(line), Kind::Request)) {
            let shown = text.input.escape_ascii();
            assert_eq!(inspect(&text.input), replay(&text.input), "{shown}");
            compared += 1;
        }
    }
    assert!(compared > 500, "{compared}");
}

/// A tree of so many tries, on a card that joins.
fn tree(random: &mut Random, tries: usize) -> Card {
    let habit = Habit {
        spoilt: 10,
        areas: random.below(9),
        joins: 3,
        deep: random.once_in(4),
        stores: Stores::Any,
    };
    let mut card = Card::new(0x0001, 0x0000, true);
    for _ in 0..tries {
        let addition = additions::addition(random, &card, WHOLE, habit);
        let _ = card.add(WHOLE, addition);
    }
    card
}

/// A child as a pair: an area's code and end, a service's code and FFFF.
fn pair(entry: &DirectoryEntry) -> [u16; 2] {
    match *entry {
        DirectoryEntry::Area {
            area_code,
            end_service_code,
        } => [area_code, end_service_code],
        DirectoryEntry::Service(code) => [code.raw(), 0xFFFF],
    }
}

/// The children of an area by the Rust's walks alone: what it walks over, less what it walks over below each
/// area among them. Only where no two areas have the same code.
fn walked(card: &Card, code: u16) -> Vec<[u16; 2]> {
    let walk = doors::walk_of(card.rust(), code).unwrap();
    let mut children = Vec::new();
    let mut next = 1;
    while next < walk.len() {
        children.push(pair(&walk[next]));
        next += match walk[next] {
            DirectoryEntry::Area { area_code, .. } => {
                doors::walk_of(card.rust(), area_code).unwrap().len()
            }
            DirectoryEntry::Service(_) => 1,
        };
    }
    children
}

/// Of 5,000 trees, packet after packet tells each child of each area once, in tree order, areas and services
/// apart; the flag says whether the next packet is there; and where the Rust's walks alone tell the
/// children, they are these.
#[test]
fn packets() {
    let mut random = Random::new(6);
    let (mut by_walks, mut several) = (0, 0);
    for _ in 0..5_000 {
        let tries = random.below(70);
        let card = tree(&mut random, tries);
        let areas = codes::areas(&card);
        let distinct: BTreeSet<&u16> = areas.iter().collect();
        for &area in &areas {
            let children: Vec<[u16; 2]> = card.children(area).unwrap().iter().map(pair).collect();
            if distinct.len() == areas.len() {
                assert_eq!(walked(&card, area), children);
                by_walks += 1;
            }
            let mut told = Vec::new();
            for packet in 0.. {
                let list = code_list(&card, area, packet).unwrap();
                let count = list.areas.len() + list.services.len();
                assert!(count == 16 || !list.continue_flag);
                let mut held = children[16 * packet as usize..][..count].to_vec();
                held.sort_by_key(|pair| pair[1] == 0xFFFF);
                let areas = list.areas.iter();
                let areas = areas.map(|area| [area.area_code, area.end_service_code]);
                let services = list.services.iter().map(|code| [code.raw(), 0xFFFF]);
                assert_eq!(areas.chain(services).collect::<Vec<_>>(), held);
                told.extend(held);
                let next = code_list(&card, area, packet + 1);
                assert_eq!(next.is_ok(), list.continue_flag);
                if !list.continue_flag {
                    assert_eq!(next, Err(45));
                    break;
                }
                several += 1;
            }
            assert_eq!(told.len(), children.len());
        }
    }
    assert!(by_walks > 5_000 && several > 1_000, "{by_walks} {several}");
}

/// Each node but the root is the child of one area, where no two areas have the same code.
#[test]
fn each_once() {
    let mut random = Random::new(7);
    let mut tried = 0;
    while tried < 500 {
        let tries = random.below(70);
        let card = tree(&mut random, tries);
        let areas = codes::areas(&card);
        if areas.iter().collect::<BTreeSet<_>>().len() < areas.len() {
            continue;
        }
        tried += 1;
        let children = areas.iter().flat_map(|&area| card.children(area).unwrap());
        let mut told: Vec<u16> = children.map(|child| pair(&child)[0]).collect();
        let mut nodes: Vec<u16> = card.nodes()[1..].iter().map(|node| node.code).collect();
        told.sort_unstable();
        nodes.sort_unstable();
        assert_eq!(told, nodes);
    }
}

/// Block information: totals are the Rust's, and free is what an area's code leaves of the arena.
#[test]
fn informations() {
    let mut random = Random::new(8);
    for _ in 0..1_000 {
        let tries = random.below(40);
        let card = tree(&mut random, tries);
        let used = card.used();
        let nodes: Vec<u16> = (0..32).map(|_| codes::any(&mut random, &card)).collect();
        let arena = random.below(WHOLE + 1);
        let usable = (arena / 16) as u32;
        let told = block_information(&card, arena, &nodes);
        if usable < used {
            assert_eq!(told, Err(7));
            continue;
        }
        let told = told.unwrap();
        for (at, &code) in nodes.iter().enumerate() {
            let is_area = |entry: &Entry| matches!(entry, Entry::Area { .. });
            let mut found = card.nodes().iter().filter(|node| node.code == code);
            let free = match found.any(|node| is_area(&node.entry)) {
                true => usable - used,
                false => 0,
            };
            assert_eq!(u32::from(told.free_block_counts[at]), free);
            assert_eq!(told.assigned_block_counts[at], card.total(code));
        }
        let more = [nodes.as_slice(), &[0x0000]].concat();
        assert_eq!(block_information(&card, arena, &more), Err(46));
    }
}

/// A code list of these many entries.
fn list(random: &mut Random, areas: usize, services: usize) -> RequestCodeListResult {
    let mut half = || random.word() as u16;
    RequestCodeListResult {
        areas: (0..areas)
            .map(|_| AreaCodeRange::new(half(), half()))
            .collect(),
        services: (0..services).map(|_| ServiceCode::new(half())).collect(),
        continue_flag: half() % 2 == 1,
    }
}

/// What was written is read back, and what is read is written as it was; a byte more or less is no message.
#[test]
fn round_trips() {
    let mut random = Random::new(9);
    for areas in 0..=20 {
        for services in 0..=20 {
            let list = list(&mut random, areas, services);
            let bytes = message::of_list(&list);
            let within = areas + services <= 16;
            assert_eq!(message::to_list(&bytes), within.then_some(list));
            assert_eq!(message::to_list(&bytes[..bytes.len() - 1]), None);
            assert_eq!(message::to_list(&[&bytes[..], &[0]].concat()), None);
        }
    }
    for count in 0..=70 {
        let mut halves = || (0..count).map(|_| random.word() as u16).collect();
        let information = RequestBlockInformationExResult {
            assigned_block_counts: halves(),
            free_block_counts: halves(),
        };
        let bytes = message::of_information(&information);
        let read = message::to_information(&bytes);
        assert_eq!(read, (count <= 32).then_some(information));
        assert_eq!(message::to_information(&bytes[..bytes.len() - 1]), None);
        assert_eq!(message::to_information(&[&bytes[..], &[0]].concat()), None);
    }
    let mut taken = [0, 0];
    for _ in 0..200_000 {
        let length = random.below(12);
        let bytes: Vec<u8> = (0..length).map(|_| random.below(4) as u8).collect();
        if let Some(list) = message::to_list(&bytes) {
            assert_eq!(message::of_list(&list), bytes);
            taken[0] += 1;
        }
        if let Some(information) = message::to_information(&bytes) {
            assert_eq!(message::of_information(&information), bytes);
            taken[1] += 1;
        }
    }
    assert!(taken.iter().all(|&taken| taken > 1_000), "{taken:?}");
}

/// The stored list meets all that inspect can say, is small, and is the same each time.
#[test]
fn stored() {
    let (length, seed) = inspections::SMALL;
    let (texts, counts) = inspections::all(length, seed);
    assert_eq!(texts.len(), length);
    assert_eq!(inspections::unmet(&counts), Vec::<String>::new());
    let bytes: usize = (texts.iter())
        .map(|text| text.input.len() + text.output.len())
        .sum();
    assert!(bytes < 300_000 && length < 160, "{bytes} {length}");
    let again = inspections::all(length, seed).0;
    for (text, same) in texts.iter().zip(&again) {
        assert_eq!(text.input, same.input);
        assert_eq!(text.output, inspect(&text.input));
    }
}

/// A long list has trees, and each thing often; every thing that is met is one of those that have to be.
#[test]
fn often() {
    let (texts, counts) = inspections::all(3_000, 2);
    let known: BTreeSet<String> = met::all().collect();
    for name in texts.iter().flat_map(|text| &text.met) {
        let node = [": FFFF", ": an unknown node", ": an area", ": a service"];
        let counted = node.iter().any(|node| name.ends_with(node));
        assert!(known.contains(name) || counted, "{name}");
    }
    assert!(counts.of("text: tree") > 2_000);
    for name in [
        "list refused 44",
        "list refused 45",
        "list refused 5",
        "info refused 7",
    ] {
        assert!(counts.of(name) > 50, "{name}: {}", counts.of(name));
    }
    for name in [
        "list: sixteen children",
        "list: seventeen children",
        "info refused 46",
    ] {
        assert!(counts.of(name) > 20, "{name}: {}", counts.of(name));
    }
    assert!(counts.of("image refused 24") > 30);
    assert!(counts.of("list: more follow") > 300);
    assert!(counts.of("readlist refused 47") > 100 && counts.of("readinfo refused 47") > 100);
}

/// Any bytes are answered, and every line that is printed has its shape.
#[test]
fn any_bytes() {
    let mut random = Random::new(5);
    let words = [
        "card\t0001\t0000\n",
        "R\tO\t",
        "L\t",
        "svc\t1\t",
        "1049\t",
        "list\t",
        "info\t",
        "readlist\t",
        "dir\n",
        "used\n",
        "room\t",
        "arena\t",
        "0000",
        "\n",
        "\t",
        "-",
    ];
    for _ in 0..20_000 {
        let mut text = Vec::new();
        if !random.once_in(4) {
            text.extend(words[0].bytes());
        }
        for _ in 0..random.below(20) {
            match random.below(4) {
                0 => text.push(random.word() as u8),
                _ => text.extend(random.pick(&words).bytes()),
            }
        }
        for line in inspect(&text).lines() {
            let fields = line.split('\t').count();
            assert!((2..=6).contains(&fields), "{line}");
        }
    }
}
