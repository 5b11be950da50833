//! Additions drawn for a card: such as it would mostly accept, and now and then spoilt ones.

use super::codes;
use super::values;
use crate::random::Random;
use crate::tree::{Addition, Card, DEEPEST, Entry, Node, usable};

/// How the additions of one card are drawn.
#[derive(Clone, Copy)]
pub struct Habit {
    /// One addition in this many is spoilt.
    pub spoilt: usize,
    /// Of ten nodes, about this many are areas.
    pub areas: usize,
    /// Of ten services, about this many join a store, and one more repeats a code.
    pub joins: usize,
    /// Whether each node goes as deep as it can.
    pub deep: bool,
    pub stores: Stores,
}

/// How many blocks services ask for.
#[derive(Clone, Copy, PartialEq, Eq)]
pub enum Stores {
    /// Few, none, all that is left, too many.
    Any,
    /// All services share one store that is as large as can be.
    OneLarge,
    /// Few, at times more than 256.
    Few,
}

/// Sizes of a large store. 17 services on 3,855 blocks, or 51 on 1,285, have 65,535 in all.
const LARGE: [u32; 6] = [4_096, 4_095, 3_855, 3_855, 2_048, 1_285];

/// One addition for the card as it stands, with an arena of this many bytes.
pub fn addition(random: &mut Random, card: &Card, arena: usize, habit: Habit) -> Addition {
    if random.once_in(10) {
        return Addition::Limit(values::limit(random));
    }
    let open: Vec<u32> = (1..=DEEPEST)
        .filter(|&depth| card.parent(depth).is_some())
        .collect();
    let depth = if habit.deep || random.once_in(2) {
        open[open.len() - 1]
    } else {
        random.pick(&open)
    };
    let parent = card.parent(depth).expect("only depths with a parent");
    let forbids = parent.code & 1 == 1 && !random.once_in(4);
    let is_area = random.below(10) < habit.areas && !forbids;
    let mut addition = if is_area {
        area(random, parent)
    } else {
        service(random, card, arena, parent, habit)
    };
    if random.once_in(habit.spoilt) {
        spoil(random, card, arena, parent, &mut addition);
        while random.once_in(4) {
            spoil(random, card, arena, parent, &mut addition);
        }
    }
    addition
}

/// The first and the last code of an area.
fn range(area: &Node) -> (u16, u16) {
    match area.entry {
        Entry::Area { end } => (area.code, end),
        Entry::Service { .. } => unreachable!("a parent is an area"),
    }
}

/// A key version, at times one that looks like an unknown node's.
fn version(random: &mut Random) -> u16 {
    match random.below(8) {
        0 => 0x0000,
        1 => 0xFFFF,
        _ => random.word() as u16,
    }
}

/// A service number of the parent's range, mostly one of its first.
fn number(random: &mut Random, parent: &Node) -> u16 {
    let (code, end) = range(parent);
    let (first, last) = (code >> 6, end.max(code) >> 6);
    let numbers = usize::from(last - first) + 1;
    let among = if random.once_in(4) {
        numbers
    } else {
        numbers.min(12)
    };
    first + random.below(among) as u16
}

/// An area within the parent.
fn area(random: &mut Random, parent: &Node) -> Addition {
    let (_, last) = range(parent);
    let forbids = u16::from(random.once_in(5));
    let code = number(random, parent) << 6 | forbids;
    let end = match random.below(5) {
        0 => code | 0x3F,
        1 => code.saturating_add(random.below(0x400) as u16),
        2 => codes::defined(random, code >> 6),
        _ => last,
    };
    Addition::Area {
        depth: parent.depth + 1,
        code,
        end: end.min(last),
        version: version(random),
    }
}

/// A service within the parent, often on a store that is there already.
fn service(
    random: &mut Random,
    card: &Card,
    arena: usize,
    parent: &Node,
    habit: Habit,
) -> Addition {
    let (first, last) = range(parent);
    let known: Vec<u16> = codes::services(card)
        .into_iter()
        .filter(|code| (first..=last).contains(code))
        .collect();
    let how = random.below(10);
    let code = match known.as_slice() {
        [one, ..] if habit.stores == Stores::OneLarge => codes::joining(random, *one),
        [_, ..] if how == 0 => random.pick(&known),
        [_, ..] if how <= habit.joins => {
            let one = random.pick(&known);
            codes::joining(random, one)
        }
        _ => {
            let number = number(random, parent);
            codes::defined(random, number)
        }
    };
    let blocks = match habit.stores {
        Stores::OneLarge if card.used() == 0 => random.pick(&LARGE).min(usable(arena)),
        Stores::OneLarge | Stores::Any => blocks(random, card, arena),
        Stores::Few => few_blocks(random),
    };
    Addition::Service {
        depth: parent.depth + 1,
        code,
        blocks,
        version: version(random),
    }
}

/// A block count: mostly small, at times all that is left, one more, or beyond any card.
fn blocks(random: &mut Random, card: &Card, arena: usize) -> u32 {
    let left = usable(arena).saturating_sub(card.used());
    match random.below(24) {
        0 => 0,
        1 => left,
        2 => left + 1,
        3 => left / 2,
        4 => random.pick(&[4_096, 4_097, 65_535, 65_536, 0x8000_0000, u32::MAX]),
        5 => random.below(300) as u32,
        _ => random.below(5) as u32,
    }
}

/// A block count: few, none, or about where a number needs three bytes in a list.
fn few_blocks(random: &mut Random) -> u32 {
    match random.below(20) {
        0 => 0,
        1 => 250 + random.below(60) as u32,
        _ => 1 + random.below(6) as u32,
    }
}

/// Changes one field so that the card may refuse the addition.
fn spoil(random: &mut Random, card: &Card, arena: usize, parent: &Node, addition: &mut Addition) {
    let (first, last) = range(parent);
    let beyond = last.saturating_add(1 + random.below(100) as u16);
    let before = first.saturating_sub(1 + random.below(100) as u16);
    match addition {
        Addition::Area {
            depth, code, end, ..
        } => match random.below(10) {
            0 | 1 => *depth = no_depth(random, card, *depth),
            2 => *code = 0xFFFF,
            3 => *end = 0xFFFF,
            4 => *code = 0x0000,
            5 => (*code, *end) = (0x0000, 0xFFFE),
            6 => *code ^= random.below(64) as u16,
            7 => *end = random.below(usize::from(*code) + 1) as u16,
            8 => *end = beyond,
            _ => *code = before & 0xFFC0,
        },
        Addition::Service {
            depth,
            code,
            blocks,
            ..
        } => match random.below(8) {
            0 | 1 => *depth = no_depth(random, card, *depth),
            2 => *code = 0xFFFF,
            3 => *code ^= random.below(64) as u16,
            4 => *code = codes::defined(random, beyond >> 6),
            5 => *code = codes::defined(random, before >> 6),
            6 => *code = codes::of_other_kind(random, card, *code),
            _ => *blocks = usable(arena) - usable(arena).min(card.used()) + 1,
        },
        Addition::Limit(_) => {}
    }
}

/// A depth that is likely to have no parent: none at all, too deep, below a node that is a service
/// or that others have shut.
fn no_depth(random: &mut Random, card: &Card, depth: u32) -> u32 {
    match random.below(8) {
        0 => 0,
        1 => DEEPEST + 1,
        2 | 3 => depth + 1,
        4 | 5 => card.nodes()[random.below(card.nodes().len())].depth + 1,
        6 => random.pick(&[0x100, 0x101, 0x1_0001, 0x8000_0001, u32::MAX]),
        _ => random.word(),
    }
}

/// The length in bytes of an arena: mostly enough for any card, at times short or odd.
pub fn arena(random: &mut Random) -> usize {
    match random.below(10) {
        0 => random.below(200),
        1 => 16 * random.below(40) + random.pick(&[0, 1, 15]),
        2 => random.below(65_536),
        3 => random.pick(&[65_519, 65_520, 65_535, 65_537, 65_552, 70_000]),
        _ => 65_536,
    }
}

/// Another length for an arena of a card: about what is in use, or anything.
pub fn other_arena(random: &mut Random, card: &Card) -> usize {
    let used = 16 * card.used() as usize;
    match random.below(6) {
        0 => used,
        1 => used + random.below(40),
        2 => used.saturating_sub(1),
        3 => random.below(used + 1),
        _ => arena(random),
    }
}
