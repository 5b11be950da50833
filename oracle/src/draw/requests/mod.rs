//! Requests drawn for a card: such as it would mostly carry out, and as often spoilt ones.

mod spoil;

use super::{codes, values};
use crate::felica_standard::emulator::doors::{self, Block, PurseStep};
use crate::felica_standard::{BLOCK_SIZE, ServiceAttribute, ServiceCode, ServiceKind};
use crate::random::Random;
use crate::request::{MOST_CODES, MOST_ELEMENTS, Request};
use crate::tree::{Card, usable};

/// A request before it is packed.
struct Draft<'a> {
    card: &'a Card,
    write: bool,
    open: bool,
    /// Whether what is sent to purses is mostly accepted.
    calm: bool,
    codes: Vec<u16>,
    elements: Vec<Element>,
}

/// One element and, for a write, the block it sends.
#[derive(Clone, Copy)]
struct Element {
    index: u8,
    mode: u8,
    number: u16,
    block: Block,
}

/// One request for the card as it stands.
pub fn request(random: &mut Random, card: &Card) -> Request {
    let mut draft = draft(random, card);
    if random.once_in(2) && !draft.elements.is_empty() {
        spoil::element(random, &mut draft);
    }
    let mut request = packed(random, &draft);
    if random.once_in(8) {
        spoil::request(random, card, &mut request);
    }
    request
}

/// One request for the card as it stands, with an element that may fail.
pub fn failing(random: &mut Random, card: &Card) -> Request {
    let mut draft = draft(random, card);
    if !draft.elements.is_empty() {
        spoil::element(random, &mut draft);
    }
    packed(random, &draft)
}

/// One request for the card as it stands, of which nothing is spoilt.
pub fn plain(random: &mut Random, card: &Card) -> Request {
    let draft = draft(random, card);
    packed(random, &draft)
}

/// A request whose elements pass their checks, if the card has services for it.
fn draft<'a>(random: &mut Random, card: &'a Card) -> Draft<'a> {
    let write = !random.once_in(3);
    let fitting = |open| {
        let mut services = codes::services(card);
        services.retain(|&code| fits(card, write, open, code));
        services
    };
    let open = random.once_in(2) && (!fitting(true).is_empty() || random.once_in(4));
    let mut services = fitting(open);
    if random.once_in(2) {
        keep_one_number(random, &mut services);
    }
    let length = random.pick(&[1, 2, 2, 3, 3, 4, 5, 6, 9, MOST_CODES]);
    let codes = (0..length)
        .map(|_| match services.as_slice() {
            [_, ..] if !random.once_in(8) => random.pick(&services),
            _ => codes::any(random, card),
        })
        .collect();
    let mut draft = Draft {
        card,
        write,
        open,
        calm: random.once_in(2),
        codes,
        elements: Vec::new(),
    };
    fill(random, &mut draft, &services);
    draft
}

/// Keeps the services of one number that has several codes; all of them if none has.
fn keep_one_number(random: &mut Random, services: &mut Vec<u16>) {
    let joined: Vec<u16> = services
        .iter()
        .copied()
        .filter(|one| {
            services
                .iter()
                .any(|other| one >> 6 == other >> 6 && one != other)
        })
        .collect();
    if !joined.is_empty() {
        let one = random.pick(&joined);
        services.retain(|code| code >> 6 == one >> 6);
    }
}

/// Adds elements of these services. A long request goes to a random store, if it can, until
/// about its 250th element: so a rule may fail for the first time beyond it.
fn fill(random: &mut Random, draft: &mut Draft, services: &[u16]) {
    let long = random.once_in(40);
    let wanted = if long {
        random.pick(&[253, 254, 255, 256, 300, MOST_ELEMENTS as usize])
    } else if random.once_in(20) {
        0
    } else {
        random.pick(&[1, 1, 2, 2, 3, 4, 5, 6, 8, 12])
    };
    let indexes: Vec<usize> = (0..draft.codes.len())
        .filter(|&index| services.contains(&draft.codes[index]))
        .collect();
    let mut plain = indexes.clone();
    plain.retain(|&index| ServiceCode::new(draft.codes[index]).kind() == Some(ServiceKind::Random));
    while draft.elements.len() < wanted {
        let made = draft.elements.len();
        if indexes.is_empty() {
            blind(random, draft);
        } else if long && made < 250 && !plain.is_empty() {
            let index = random.pick(&plain);
            segment(random, draft, index, 252 - made);
        } else {
            let index = random.pick(&indexes);
            segment(random, draft, index, (wanted - made).min(3));
        }
    }
}

/// Whether elements of such a request can name blocks of this service of the card.
fn fits(card: &Card, write: bool, open: bool, code: u16) -> bool {
    let service = ServiceCode::new(code);
    let writable = service
        .attribute()
        .is_some_and(ServiceAttribute::allows_write);
    let reached = !open || !service.requires_key();
    reached && (!write || writable) && card.store(code) > Some(0)
}

/// Adds an element that names nothing in particular.
fn blind(random: &mut Random, draft: &mut Draft) {
    draft.elements.push(Element {
        index: random.below(draft.codes.len() + 1) as u8 & 0x0F,
        mode: 0,
        number: random.below(3) as u16,
        block: random.block(),
    });
}

/// Adds elements of one service, at most this many, and at least one.
fn segment(random: &mut Random, draft: &mut Draft, index: usize, most: usize) {
    let (card, code) = (draft.card, draft.codes[index]);
    let service = ServiceCode::new(code);
    let kind = service.kind();
    let count = card.store(code).unwrap_or(1) as usize;
    let ring = draft.write && kind == Some(ServiceKind::Cyclic);
    let longest = if ring { count } else { most };
    let length = 1 + random.below(longest.min(most));
    // A ring is at times sent what it holds, or what this request sent it before.
    let again = random.once_in(3);
    let sent: Vec<Block> = draft
        .elements
        .iter()
        .filter(|element| draft.codes[usize::from(element.index)] >> 6 == code >> 6)
        .map(|element| element.block)
        .collect();
    let cashback = service.attribute() == Some(ServiceAttribute::PurseCashback);
    for at in 0..length {
        let number = if ring { 0 } else { random.below(count) };
        let mode = u8::from(draft.write && cashback && random.once_in(2));
        let stored = |number| doors::block(card.rust(), code, number).unwrap_or_default();
        let block = match kind {
            Some(ServiceKind::Purse) => command(random, draft, code, mode, &stored(number)),
            Some(ServiceKind::Cyclic) if again => sent.get(at).copied().unwrap_or(stored(at)),
            _ => random.block(),
        };
        draft.elements.push(Element {
            index: index as u8,
            mode,
            number: number as u16,
            block,
        });
    }
}

/// What a write sends to a stored purse block.
fn command(random: &mut Random, draft: &Draft, code: u16, mode: u8, stored: &Block) -> Block {
    let step = match (ServiceCode::new(code).attribute(), mode) {
        (Some(ServiceAttribute::PurseDirect), _) => PurseStep::Direct,
        (_, 1) => PurseStep::Cashback,
        _ => PurseStep::Decrement,
    };
    let bounds = values::bounds(draft.card.limit(code));
    let held = |at| values::read(stored, at, false) as u32;
    let (purse, cashback) = (held(0), held(4));
    let mut part = |value: u32| random.below(value.min(20) as usize + 1) as u32;
    let (amount, given) = if !draft.calm {
        let amount = values::amount(random, step, bounds, (purse, cashback));
        (amount, values::cashback(random, bounds, (purse, cashback)))
    } else {
        match step {
            PurseStep::Direct => (purse - part(purse), cashback - part(cashback)),
            PurseStep::Decrement => (part(purse), part(cashback)),
            PurseStep::Cashback => (part(cashback), part(cashback)),
        }
    };
    let mut block = values::block(random, amount, given);
    if random.once_in(6) {
        block[12..].copy_from_slice(&stored[12..]);
    }
    block
}

/// The request as it is sent. Small numbers are at times packed in three bytes, and the data at
/// times hold more than is needed.
fn packed(random: &mut Random, draft: &Draft) -> Request {
    let mut list = Vec::new();
    let mut data = Vec::new();
    let long_form = random.pick(&[0, 0, 0, 2, 5]);
    for element in &draft.elements {
        let head = element.mode << 4 | element.index;
        if element.number < 256 && random.below(6) >= long_form {
            list.extend([0x80 | head, element.number as u8]);
        } else {
            list.push(head);
            list.extend(element.number.to_le_bytes());
        }
        if draft.write {
            data.extend(element.block);
        }
    }
    if draft.write && random.once_in(20) {
        data.resize(data.len() + 1 + random.below(20), 0xEE);
    }
    Request {
        write: draft.write,
        open: draft.open,
        codes: draft.codes.clone(),
        count: draft.elements.len() as u32,
        list,
        data,
    }
}

/// A length of staging or output lent with a request and an arena of this many bytes: mostly
/// enough, often just so; more often too short where another test of the request fails as well.
pub fn room(random: &mut Random, card: &Card, arena: usize, request: &Request) -> usize {
    let blocks = request.count.min(MOST_ELEMENTS) as usize;
    let needed = BLOCK_SIZE
        * match request.write {
            true => card.used() as usize,
            false => blocks,
        };
    let arena_short = usable(arena) < card.used();
    let data_short = request.write && request.data.len() < blocks * BLOCK_SIZE;
    let times = if arena_short || data_short { 8 } else { 60 };
    match random.below(times) {
        0 => needed.saturating_sub(1),
        1 => random.below(needed + 1),
        how if how < times / 2 => needed,
        _ => needed + random.below(100),
    }
}
