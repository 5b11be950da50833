//! Random trees: what a card answers to each addition, and to questions about the card that
//! came of them. `README.md` has the lines.

use crate::counts::Counts;
use crate::draw::additions::{self, Habit, Stores};
use crate::draw::codes;
use crate::hex::hex_codes;
use crate::lines;
use crate::program::List;
use crate::random::Random;
use crate::refusal::Refusal;
use crate::tree::{Addition, Card, Entry, MOST_NODES, usable};

/// Length and seed of the list that is small enough to be stored.
pub const SMALL: (usize, u64) = (660, 1);

/// One tree in this many is of a card that does not join, the last ones of a list.
const STRICT_ONE_IN: usize = 11;

/// How one tree is drawn.
struct Plan {
    habit: Habit,
    /// How many additions there are; if `full`, counted from the 64th node on.
    additions: usize,
    full: bool,
    /// Before one addition in this many, another arena is lent; sooner if it is too short.
    lent: usize,
}

/// This many trees, fixed by the seed.
pub fn all(length: usize, seed: u64) -> List {
    let mut random = Random::new(seed);
    let mut counts = Counts::default();
    let joining = length - length / STRICT_ONE_IN;
    let texts = (0..length)
        .map(|at| tree(&mut random, &mut counts, at < joining))
        .collect();
    (texts, counts)
}

/// A plan: most trees are mixed, some deep, some on small arenas that change, a few with one
/// large store, a few with a full table.
fn plan(random: &mut Random) -> Plan {
    let mut plan = Plan {
        habit: Habit {
            spoilt: 3,
            areas: 3,
            joins: 4,
            deep: false,
            stores: Stores::Any,
        },
        additions: 4 + random.below(30),
        full: false,
        lent: 30,
    };
    match random.below(100) {
        0..3 => {
            plan.habit.spoilt = 12;
            plan.additions = 4 + random.below(10);
            plan.full = true;
        }
        3..7 => {
            plan.habit.spoilt = 20;
            plan.habit.areas = random.pick(&[0, 1]);
            plan.habit.stores = Stores::OneLarge;
            plan.additions = 16 + random.below(35);
        }
        7..25 => {
            plan.habit.spoilt = 4;
            plan.habit.areas = 7;
            plan.habit.deep = true;
        }
        25..45 => plan.lent = 6,
        _ => {}
    }
    plan
}

/// The text of one tree, of a card that joins or does not. One that joins and never had to is
/// written as one that does not.
fn tree(random: &mut Random, counts: &mut Counts, join: bool) -> String {
    let mut plan = plan(random);
    let (system, version) = (random.word() as u16, random.word() as u16);
    let mut arena = if plan.full || plan.habit.stores == Stores::OneLarge {
        65_536
    } else {
        additions::arena(random)
    };
    if arena % 16 != 0 {
        counts.meet("T arena of odd length");
    }
    let mut card = Card::new(system, version, join);
    let lent = arena;
    let mut text = String::new();
    let mut left = plan.additions;
    while left > 0 {
        if card.nodes().len() == MOST_NODES {
            // From here on 20 is met; now and then what comes before it, or what would after it.
            plan.habit.spoilt = 2;
            plan.lent = 5;
        }
        let short = usable(arena) < card.used();
        if random.once_in(if short { 2 } else { plan.lent }) {
            arena = additions::other_arena(random, &card);
            text += &lines::lent(arena);
            counts.meet("m");
        }
        let addition = additions::addition(random, &card, arena, plan.habit);
        text += &add(&mut card, arena, addition, counts);
        if !plan.full || card.nodes().len() == MOST_NODES {
            left -= 1;
        }
    }
    questions(random, &mut card, &mut text, counts);
    lines::start(&card, card.relies(), lent) + &text
}

/// The line of one addition, with the answer.
fn add(card: &mut Card, arena: usize, addition: Addition, counts: &mut Counts) -> String {
    let met = met(card, addition);
    let refusal = card.add(arena, addition).err().unwrap_or(0);
    let line = lines::addition(addition, refusal, card.used());
    count(counts, &line[..1], refusal, &met);
    line
}

/// Counts an addition by its answer, and what it met if it was accepted.
fn count(counts: &mut Counts, letter: &str, refusal: Refusal, met: &[String]) {
    if refusal > 0 {
        counts.meet(format!("refusal {refusal}"));
        counts.meet(format!("{letter} refused {refusal}"));
        return;
    }
    counts.meet(format!("{letter} accepted"));
    for name in met {
        counts.meet(format!("{letter} accepted, {name}"));
    }
}

/// What is remarkable about an addition if the card accepts it, for the counts.
fn met(card: &Card, addition: Addition) -> Vec<String> {
    let mut met = Vec::new();
    let mut when = |holds: bool, name: &str| {
        if holds {
            met.push(name.to_string());
        }
    };
    let again = |code| card.nodes().iter().any(|node| node.code == code);
    match addition {
        Addition::Area { depth, code, .. } => {
            when(code & 1 == 1, "low bit 1");
            when(code == 0, "code 0000");
            when(again(code), "code again");
            when(true, &format!("depth {depth}"));
        }
        Addition::Service {
            depth,
            code,
            blocks,
            ..
        } => {
            let store = card.store(code);
            when(store.is_some(), "joins");
            when(
                store.is_some_and(|count| count != blocks),
                "joins with another count",
            );
            when(store.is_none() && blocks == 0, "store of 0 blocks");
            when(again(code), "code again");
            when(true, &format!("depth {depth}"));
        }
        Addition::Limit(_) => {
            let last = card.nodes()[card.nodes().len() - 1].entry;
            let replaces = matches!(last, Entry::Service { limit: Some(_), .. });
            when(replaces, "replaces another");
        }
    }
    met
}

/// The lines of the questions about a finished card, with their answers.
fn questions(random: &mut Random, card: &mut Card, text: &mut String, counts: &mut Counts) {
    let needed = card.nodes().len() * 2;
    if needed == 2 * MOST_NODES {
        counts.meet("D of a full table");
    }
    for _ in 0..random.pick(&[1, 1, 2]) {
        let room = match random.below(6) {
            0 => needed - 1,
            1 => needed + 1,
            2 => random.below(needed + 1),
            3 => 2 * MOST_NODES,
            _ => needed,
        };
        let answer = match card.directory(room) {
            Ok(pairs) => hex_codes(&pairs),
            Err(refusal) => format!("!{refusal:02X}"),
        };
        counts.meet(if answer.starts_with('!') {
            "D refused"
        } else {
            "D listed"
        });
        *text += &format!("D {room:04X} {answer}\n");
    }
    for at in 0..random.pick(&[2, 3, 4]) {
        let code = if at == 0 { 0 } else { codes::any(random, card) };
        let total = card.total(code);
        if total == u16::MAX {
            counts.meet("N stops at 65535");
        }
        *text += &format!("N {code:04X} {total:04X}\n");
    }
    for _ in 0..random.pick(&[2, 3, 4]) {
        let code = codes::any(random, card);
        let version = card.key_version(code);
        *text += &format!("V {code:04X} {version:04X}\n");
    }
    for _ in 0..random.pick(&[1, 2, 3]) {
        let list = codes::area_list(random, card);
        let result = u8::from(card.area_list(&list));
        counts.meet(format!("K {result:02X}"));
        *text += &format!("K {} {result:02X}\n", hex_codes(&list));
    }
    for _ in 0..random.pick(&[2, 3, 4]) {
        let list = codes::service_list(random, card);
        let result = u8::from(card.service_list(&list));
        counts.meet(format!("L {result:02X}"));
        *text += &format!("L {} {result:02X}\n", hex_codes(&list));
    }
}
