//! Damaged images, drawn: an image that the builder accepts, then damage to some of its lines.

use crate::draw::additions::{self, Habit, Stores};
use crate::draw::cards;
use crate::random::Random;
use crate::replay::ARENA;
use crate::texts::line::Line;
use crate::texts::spoil;
use crate::tree::{Card, MOST_NODES};

/// How the nodes of an image are drawn: one in four spoilt, so that some lines are refused.
const HABIT: Habit = Habit {
    spoilt: 4,
    areas: 4,
    joins: 3,
    deep: false,
    stores: Stores::Few,
};

/// A text, in one of four without its last byte.
pub fn text(random: &mut Random) -> Vec<u8> {
    let mut lines = lines(random);
    for _ in 0..random.below(8) {
        damage(random, &mut lines);
    }
    let mut text: Vec<u8> = lines.iter().flat_map(|line| line.bytes(random)).collect();
    if random.once_in(4) {
        text.pop();
    }
    text
}

/// The lines of an image. Most are accepted one after the other; one in six of those that are not stays.
fn lines(random: &mut Random) -> Vec<Line> {
    let join = random.once_in(2);
    let (system, version) = (random.word() as u16, random.word() as u16);
    let mut card = Card::new(system, version, join);
    let mut first = Line::card(system, version);
    if join {
        first.0.push(b"join".to_vec());
    }
    let mut lines = vec![first];
    let most = if random.once_in(12) {
        4 * MOST_NODES
    } else {
        40
    };
    for _ in 0..random.below(most) {
        let addition = additions::addition(random, &card, ARENA, HABIT);
        if card.add(ARENA, addition).is_ok() || random.once_in(6) {
            lines.push(Line::addition(addition));
        }
        if random.once_in(6)
            && let Some(block) = cards::block(random, &card)
        {
            lines.push(Line::block(block));
        }
    }
    lines
}

/// One damage: a line lost, sent twice, exchanged, spoilt, at another depth, or one that does not belong there. A line whose last field
/// was lost stays as it is.
fn damage(random: &mut Random, lines: &mut Vec<Line>) {
    if lines.is_empty() {
        return;
    }
    let (at, other) = (random.below(lines.len()), random.below(lines.len()));
    if lines[at].0.is_empty() {
        return;
    }
    match random.below(12) {
        0 => {
            lines.remove(at);
        }
        1 => {
            let again = Line(lines[at].0.clone());
            lines.insert(other, again);
        }
        2 => lines.swap(at, other),
        3 | 4 => spoil::spoil(random, &mut lines[at]),
        5..8 => deeper(random, &mut lines[at]),
        8 => lines.insert(at, stray(random)),
        9 => {
            let limit = format!("lim {} -5 1", random.below(100));
            lines.insert(at, Line::of(limit));
        }
        10 => {
            let end = lines[at].0.len() - 1;
            lines[at].0.swap(end / 2, end);
        }
        _ => {
            lines.remove(0);
        }
    }
}

/// The line of an area or a service at another depth, or an area that ends before it begins.
fn deeper(random: &mut Random, line: &mut Line) {
    match line.0.as_mut_slice() {
        [name, _, _, end, _] if name == b"area" && random.once_in(2) => *end = b"0000".to_vec(),
        [name, depth, ..] if name == b"area" || name == b"svc" => {
            *depth = random.below(11).to_string().into_bytes();
        }
        _ => {}
    }
}

/// A line that no image has in its middle.
fn stray(random: &mut Random) -> Line {
    let lines = [
        "R O - 0 -",
        "W S - 0 - -",
        "L 1009",
        "card 0000 0000",
        "card 0001",
        "",
        "svc",
        "lim",
        "area",
    ];
    Line::of(random.pick(&lines).to_string())
}
