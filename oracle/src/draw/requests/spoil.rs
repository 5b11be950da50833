//! Requests changed so that they fail or are refused.

use super::Draft;
use crate::draw::codes;
use crate::felica_standard::{ServiceCode, ServiceKind};
use crate::random::Random;
use crate::request::{MOST_CODES, MOST_ELEMENTS, Request};
use crate::tree::Card;

/// Changes one element, often one about the 255th, so that its check or its rule may fail; now
/// and then twice, so that it may fail by two tests.
pub fn element(random: &mut Random, draft: &mut Draft) {
    let elements = draft.elements.len();
    let at = if elements > 252 && !random.once_in(4) {
        (252 + random.below(6)).min(elements - 1)
    } else {
        random.below(elements)
    };
    change(random, draft, at);
    if random.once_in(4) {
        change(random, draft, at);
    }
}

/// Changes the element at this place, or a cyclic run.
fn change(random: &mut Random, draft: &mut Draft, at: usize) {
    let services = codes::services(draft.card);
    match random.below(11) {
        0 => draft.elements[at].index = (draft.codes.len() + random.below(3)).min(15) as u8,
        1 => draft.elements[at].mode = random.below(8) as u8,
        2 => {
            let code = codes::no_service(random, draft.card);
            name(draft, at, code);
        }
        3 => {
            let code = codes::unknown(random, draft.card);
            name(draft, at, code);
        }
        4 | 5 if !services.is_empty() => name(draft, at, random.pick(&services)),
        6 => draft.elements[at].mode = 1,
        7 => {
            let code = draft.codes.get(usize::from(draft.elements[at].index));
            let count = code.and_then(|&code| draft.card.store(code)).unwrap_or(0) as u16;
            draft.elements[at].number = match random.below(4) {
                0 => count,
                1 => count.saturating_add(random.below(300) as u16),
                2 => random.pick(&[0xFF, 0x100, 0x101, 0x7FFF, 0xFFFF]),
                _ => random.word() as u16,
            };
        }
        _ => ring(random, draft),
    }
}

/// Lets the element at this place name this code, which is added to the codes if there is room.
fn name(draft: &mut Draft, at: usize, code: u16) {
    if draft.codes.len() < MOST_CODES {
        draft.codes.push(code);
        draft.elements[at].index = (draft.codes.len() - 1) as u8;
    } else {
        draft.codes[usize::from(draft.elements[at].index)] = code;
    }
}

/// Lets a cyclic run name another block than 0, makes it longer than its store, or both; does
/// nothing if there is no such run.
fn ring(random: &mut Random, draft: &mut Draft) {
    let rings: Vec<usize> = (0..draft.elements.len())
        .filter(|&at| {
            let code = draft.codes.get(usize::from(draft.elements[at].index));
            code.is_some_and(|&code| ServiceCode::new(code).kind() == Some(ServiceKind::Cyclic))
        })
        .collect();
    if rings.is_empty() {
        return;
    }
    let at = random.pick(&rings);
    let element = draft.elements[at];
    let count = draft.card.store(draft.codes[usize::from(element.index)]);
    let count = count.unwrap_or(0) as usize;
    let how = random.below(5);
    if how < 3 && draft.elements.len() + count <= MOST_ELEMENTS as usize {
        draft.elements.splice(at..at, vec![element; count]);
    }
    if how > 1 {
        draft.elements[at].number = random.below(count.max(1)).max(1) as u16;
    }
}

/// Changes a request so that it is refused with 1, 2 or 3, or its data are too short; now and then
/// twice.
pub fn request(random: &mut Random, card: &Card, request: &mut Request) {
    refuse(random, card, request);
    if random.once_in(4) {
        refuse(random, card, request);
    }
}

/// Changes one part of a request.
fn refuse(random: &mut Random, card: &Card, request: &mut Request) {
    match random.below(9) {
        0 => request.count = random.pick(&[513, 514, 0xFFFF, 0x1_0000, 0x1_0001, u32::MAX]),
        1 => {
            let length = MOST_CODES + 1 + random.below(4);
            while request.codes.len() < length {
                request.codes.push(codes::any(random, card));
            }
        }
        2 => request.count = request.count.saturating_add(1),
        3 => request.count = request.count.saturating_sub(1),
        4 => request.list.truncate(request.list.len().saturating_sub(1)),
        5 => request.list.push(random.word() as u8),
        6 => {
            let at = random.below(request.list.len() + 1);
            if let Some(byte) = request.list.get_mut(at) {
                *byte ^= 0x80;
            }
        }
        7 => request
            .data
            .truncate(request.data.len().saturating_sub(1 + random.below(18))),
        _ => request.data.truncate(random.below(request.data.len() + 1)),
    }
}
