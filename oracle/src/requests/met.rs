//! What a request met, for the counts.

use crate::cause;
use crate::counts::Counts;
use crate::felica_standard::{BlockListElement, ServiceCode, ServiceKind};
use crate::refusal::Refusal;
use crate::request::{Request, Told, unpack};
use crate::tree::{Card, Entry};
use std::collections::BTreeSet;

/// Counts a request by its answer and its shape. The card is as the request left it.
pub fn count(counts: &mut Counts, card: &Card, request: &Request, told: &Result<Told, Refusal>) {
    let letter = if request.write { 'W' } else { 'R' };
    let told = match told {
        Err(refusal) => return counts.meet(format!("{letter} refusal {refusal}")),
        Ok(told) => told,
    };
    let elements = unpack(&request.list, request.count).expect("another list is refused");
    let (sf1, sf2) = told.pair;
    if sf1 != 0 {
        counts.meet(format!("SF2 {sf2:02X}"));
    }
    for name in notable(card, request, &elements) {
        counts.meet(format!("{letter} with {name}"));
    }
    match (sf1, sf2) {
        (0, _) => {
            counts.meet(format!("{letter} done"));
            if request.write {
                runs(counts, request, &elements);
            }
        }
        (255, 0xAC) => counts.meet(format!("{letter} AC")),
        (255, _) => counts.meet(format!("{letter} {sf2:02X} at place 255 or beyond")),
        _ => {
            if sf1 == 254 {
                counts.meet(format!("{letter} {sf2:02X} at place 254"));
            }
            failed(counts, card, request, &elements, usize::from(sf1) - 1, sf2);
        }
    }
}

/// What is notable about the elements of a request, whatever it is told.
fn notable(card: &Card, request: &Request, elements: &[BlockListElement]) -> Vec<&'static str> {
    let mut names = Vec::new();
    let numbers = || elements.iter().map(|one| one.block_number_or_key_version);
    if numbers().any(|number| number > 255) {
        names.push("a number over 255");
    }
    let shortest: usize = elements.iter().map(|element| element.pack().len()).sum();
    if request.list.len() > shortest {
        names.push("a small number in three bytes");
    }
    let another_limit = |code: u16| {
        card.nodes().iter().any(|node| match node.entry {
            Entry::Service { limit, .. } => node.code == code && limit != card.limit(code),
            Entry::Area { .. } => false,
        })
    };
    let mut indexes = elements.iter().map(|one| one.service_code_list_index);
    let named = |index: u8| request.codes.get(usize::from(index)).copied();
    if indexes.any(|index| named(index).is_some_and(another_limit)) {
        names.push("a code that has another limit later in the tree");
    }
    names
}

/// Counts a request whose element at this index failed, by its cause, and whether runs of other
/// numbers went before.
fn failed(
    counts: &mut Counts,
    card: &Card,
    request: &Request,
    elements: &[BlockListElement],
    index: usize,
    sf2: u8,
) {
    let letter = if request.write { 'W' } else { 'R' };
    let (name, by_rule) = match sf2 {
        0xA5 => {
            let cause = cause::of(card, request, (index as u8 + 1, sf2)).expect("A5 has a cause");
            (format!("A5 {}", cause.name()), cause.by_rule())
        }
        0x01..=0x03 | 0xAF => (format!("{sf2:02X}"), true),
        _ => (format!("{sf2:02X}"), false),
    };
    if by_rule && numbers(request, &elements[..=index]).len() > 1 {
        counts.meet(format!("{letter} {name} in a later run"));
    }
    counts.meet(format!("{letter} {name}"));
}

/// The service number of each run of these elements, all of which name a code.
fn numbers(request: &Request, elements: &[BlockListElement]) -> Vec<u16> {
    let codes = elements.iter().map(|element| code(request, element));
    let mut numbers: Vec<u16> = codes.map(|code| code.number()).collect();
    numbers.dedup();
    numbers
}

/// The code that an element names.
fn code(request: &Request, element: &BlockListElement) -> ServiceCode {
    ServiceCode::new(request.codes[usize::from(element.service_code_list_index)])
}

/// Counts the shape of a write that was carried out.
fn runs(counts: &mut Counts, request: &Request, elements: &[BlockListElement]) {
    let numbers = numbers(request, elements);
    if numbers.len() > 1 {
        counts.meet("W done, several runs");
    }
    let same = |one: &BlockListElement, next: &BlockListElement| {
        code(request, one).number() == code(request, next).number()
    };
    let mut rings = BTreeSet::new();
    for run in elements.chunk_by(same) {
        let codes: BTreeSet<u16> = run.iter().map(|one| code(request, one).raw()).collect();
        let first = code(request, &run[0]);
        let kind = first.kind().expect("the element check knows the kind");
        if codes.len() > 1 {
            counts.meet(format!("W done, {kind:?} run of several codes"));
        }
        if kind == ServiceKind::Cyclic && !rings.insert(first.number()) {
            counts.meet("W done, cyclic runs parted by another number");
        }
    }
    if elements.is_empty() {
        counts.meet("W done, no elements");
    }
}
