//! A write that was accepted and is sent again at once, as handsets do when no answer comes. Where
//! no purse block is named twice and each cyclic number forms a single run, it is accepted again
//! and changes no stored byte; elsewhere it may be refused, or change some.

use crate::counts::Counts;
use crate::draw::requests;
use crate::felica_standard::{BLOCK_SIZE, BlockListElement, ServiceCode, ServiceKind};
use crate::random::Random;
use crate::replay::ARENA;
use crate::request::{self, MOST_CODES, MOST_ELEMENTS, Request, Told};
use crate::texts::line::Line;
use crate::texts::served;
use crate::tree::Card;

/// How many requests are drawn for a card before another one is.
const ON_ONE_CARD: usize = 40;

/// Of this many writes at least one has to do harm when it is sent again.
pub const HARM_ONCE_IN: usize = 20;

/// What an element of a write names: number, kind and block.
#[derive(Clone, Copy)]
struct Named {
    number: u16,
    kind: Option<ServiceKind>,
    block: u16,
}

/// What is sent twice and served by what: the card's own `serve`, or a wrong one.
pub type Serve = fn(&mut Card, &Request) -> Option<Told>;

/// The answer of the Rust to a request with enough lent; none if it is refused.
pub fn serve(card: &mut Card, request: &Request) -> Option<Told> {
    request::serve(card, ARENA, ARENA, request).ok()
}

/// Sends so many accepted writes twice and counts what comes of them. Gives the line of the first
/// one that does harm although both premises hold.
pub fn send(
    writes: usize,
    random: &mut Random,
    serve: Serve,
    counts: &mut Counts,
) -> Option<Vec<u8>> {
    let (mut card, mut left, mut sent) = (Card::new(0, 0, true), 0, 0);
    while sent < writes {
        if left == 0 {
            let only = random.pick(&[
                None,
                None,
                Some(ServiceKind::Purse),
                Some(ServiceKind::Cyclic),
            ]);
            (card, left) = (served::image(random, only).0, ON_ONE_CARD);
        }
        left -= 1;
        let request = match random.below(3) {
            0 => requests::request(random, &card),
            1 => requests::plain(random, &card),
            _ => joined(random, &card),
        };
        if !request.write || !done(serve(&mut card, &request)) {
            continue;
        }
        sent += 1;
        let stored = card.arena();
        let accepted = done(serve(&mut card, &request));
        let harm = match (accepted, card.arena() == stored) {
            (true, true) => None,
            (true, false) => Some("changed"),
            (false, _) => Some("not accepted"),
        };
        let (purses, rings) = premises(&request);
        count(counts, (purses, rings), harm);
        if purses && rings && harm.is_some() {
            return Some(Line::request(&request).bytes(random));
        }
    }
    None
}

/// Whether a request was accepted.
fn done(told: Option<Told>) -> bool {
    told.is_some_and(|told| told.pair == (0x00, 0x00))
}

/// Whether no purse block is named twice, by whichever code, and whether the elements of each
/// cyclic number are one run.
pub fn premises(request: &Request) -> (bool, bool) {
    let elements = request::unpack(&request.list, request.count).unwrap_or_default();
    let named: Vec<Named> = elements.iter().map(|one| name(request, one)).collect();
    let pairs = || {
        let later = |at: usize| (at + 1..named.len()).map(move |next| (at, next));
        (0..named.len()).flat_map(later)
    };
    let same = |kind, one: usize, two: usize| {
        let (one, two) = (named[one], named[two]);
        one.number == two.number && one.kind == Some(kind) && two.kind == Some(kind)
    };
    let twice = |(one, two): (usize, usize)| {
        same(ServiceKind::Purse, one, two) && named[one].block == named[two].block
    };
    let parted = |(one, two): (usize, usize)| {
        let other = |between: &Named| between.number != named[one].number;
        same(ServiceKind::Cyclic, one, two) && named[one..two].iter().any(other)
    };
    (!pairs().any(twice), !pairs().any(parted))
}

/// What an element names.
fn name(request: &Request, element: &BlockListElement) -> Named {
    let code = request.codes[usize::from(element.service_code_list_index)];
    Named {
        number: code >> 6,
        kind: ServiceCode::new(code).kind(),
        block: element.block_number_or_key_version,
    }
}

/// Counts a write that was sent twice.
fn count(counts: &mut Counts, (purses, rings): (bool, bool), harm: Option<&str>) {
    counts.meet("writes accepted, and sent again");
    let premises = match (purses, rings) {
        (true, true) => "both premises hold",
        (false, true) => "a purse block is named twice",
        (true, false) => "a ring has two runs",
        (false, false) => "both premises fail",
    };
    let harm = harm.unwrap_or("accepted, and nothing changed");
    counts.meet(format!("{premises}: {harm}"));
    if !(purses && rings) && harm != "accepted, and nothing changed" {
        counts.meet("harm");
    }
}

/// Two or three writes as one, of which the elements of each come after those before it.
fn joined(random: &mut Random, card: &Card) -> Request {
    let mut whole = requests::plain(random, card);
    for _ in 0..1 + random.below(2) {
        let more = requests::plain(random, card);
        let count = (whole.count + more.count) as usize;
        let fits =
            whole.codes.len() + more.codes.len() <= MOST_CODES && count <= MOST_ELEMENTS as usize;
        let elements = request::unpack(&more.list, more.count);
        if !whole.write || !more.write || !fits {
            continue;
        }
        let first = whole.codes.len() as u8;
        whole.data.truncate(whole.count as usize * BLOCK_SIZE);
        whole.data.extend(&more.data);
        for mut element in elements.unwrap_or_default() {
            element.service_code_list_index += first;
            whole.list.extend(element.pack());
        }
        whole.open &= more.open;
        whole.codes.extend(&more.codes);
        whole.count = count as u32;
    }
    whole
}
