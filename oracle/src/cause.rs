//! Which of its causes an A5 has. The Rust tells none of them: they are worked out here, beside it,
//! by the rules, from the request and the card that it was put to.

use crate::draw::values::read;
use crate::felica_standard::emulator::doors::{self, Block, Pair};
use crate::felica_standard::{BLOCK_SIZE, BlockListElement, ServiceCode, ServiceKind};
use crate::request::{self, Request, unpack};
use crate::tree::Card;

/// The status byte that has causes.
const NOT_ALLOWED: u8 = 0xA5;

/// The place of the 255th element and of all after it.
const BEYOND: u8 = 0xFF;

/// The causes, by the numbers that replay prints. The element check has the first three.
#[derive(Clone, Copy, Debug, PartialEq, Eq)]
pub enum Cause {
    KeyNeeded = 1,
    ReadOnly = 2,
    NoCashback = 3,
    CyclicBlock = 4,
    PurseRaised = 5,
    CashbackRaised = 6,
    SumTooLarge = 7,
}

impl Cause {
    pub fn number(self) -> u8 {
        self as u8
    }

    /// Its name in the counts.
    pub fn name(self) -> &'static str {
        match self {
            Cause::KeyNeeded => "key needed",
            Cause::ReadOnly => "read-only",
            Cause::NoCashback => "no cashback",
            Cause::CyclicBlock => "cyclic block not 0",
            Cause::PurseRaised => "purse raised",
            Cause::CashbackRaised => "cashback raised",
            Cause::SumTooLarge => "sum too large",
        }
    }

    /// Whether it is a cause of a write rule, not of the element check.
    pub fn by_rule(self) -> bool {
        self.number() > Cause::NoCashback.number()
    }
}

/// The cause of A5 of a direct purse write, by the first test that fails.
pub fn of_direct(stored: &Block, command: &Block, signed: bool) -> Cause {
    let raised = |at| read(command, at, signed) > read(stored, at, signed);
    if raised(0) {
        Cause::PurseRaised
    } else if raised(4) {
        Cause::CashbackRaised
    } else {
        Cause::SumTooLarge
    }
}

/// The cause of a request that was told this pair; none if that is no A5. The card is as the
/// request left it, unchanged.
pub fn of(card: &Card, request: &Request, (place, sf2): Pair) -> Option<Cause> {
    if sf2 != NOT_ALLOWED {
        return None;
    }
    let elements = unpack(&request.list, request.count).expect("another list is refused");
    let first = usize::from(place) - 1;
    // Checks come ahead of rules. Where the place is beyond what SF1 tells, the first element from
    // there on that has a cause in its check is the one that failed.
    let told = match place {
        BEYOND => &elements[first..],
        _ => &elements[first..=first],
    };
    let checked = told.iter().find_map(|element| of_check(request, element));
    let by_rule = || {
        of_rule(
            card,
            request,
            &elements,
            failed(card, request, &elements, place),
        )
    };
    Some(checked.unwrap_or_else(by_rule))
}

/// The cause that an element has in its check, if it gets as far.
fn of_check(request: &Request, element: &BlockListElement) -> Option<Cause> {
    let index = usize::from(element.service_code_list_index);
    let service = ServiceCode::new(*request.codes.get(index)?);
    let attribute = service.attribute()?;
    if request.open && service.requires_key() {
        Some(Cause::KeyNeeded)
    } else if request.write && !attribute.allows_write() {
        Some(Cause::ReadOnly)
    } else if request.write && element.access_mode == 1 && !attribute.allows_cashback() {
        Some(Cause::NoCashback)
    } else {
        None
    }
}

/// The index of the element that failed by a rule with A5 told at this place.
fn failed(card: &Card, request: &Request, elements: &[BlockListElement], place: u8) -> usize {
    let first = usize::from(place) - 1;
    if place != BEYOND {
        return first;
    }
    // The shortest list that is told the same ends with it.
    let same = |&length: &usize| {
        let told = front(card, request, &elements[..length]).1;
        told != (BEYOND, NOT_ALLOWED)
    };
    let lengths: Vec<usize> = (first + 1..elements.len()).collect();
    first + lengths.partition_point(same)
}

/// The cause that a write rule has for an element that passed its check.
fn of_rule(card: &Card, request: &Request, elements: &[BlockListElement], index: usize) -> Cause {
    let element = elements[index];
    let code = request.codes[usize::from(element.service_code_list_index)];
    if ServiceCode::new(code).kind() == Some(ServiceKind::Cyclic) {
        return Cause::CyclicBlock;
    }
    // The block that the element met: the elements before it, all of which passed, are carried out.
    let (met, pair) = front(card, request, &elements[..index]);
    assert_eq!(pair, (0, 0));
    let number = usize::from(element.block_number_or_key_version);
    let stored = doors::block(met.rust(), code, number);
    let stored = stored.expect("the element check found this block");
    let command = request.data[index * BLOCK_SIZE..].first_chunk();
    let command = command.expect("data too short are AC");
    of_direct(&stored, command, card.limit(code).is_some())
}

/// A copy of the card after the front part of a write, and what that was told.
fn front(card: &Card, request: &Request, elements: &[BlockListElement]) -> (Card, Pair) {
    let mut copy = card.clone();
    let request = Request {
        count: elements.len() as u32,
        list: elements.iter().flat_map(BlockListElement::pack).collect(),
        ..request.clone()
    };
    let told = request::serve(&mut copy, usize::MAX, usize::MAX, &request);
    let pair = told.expect("the whole request was not refused").pair;
    (copy, pair)
}
