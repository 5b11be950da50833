//! What each question is answered: the fields after its name.

use super::line::Question;
use super::lists::{block_information, code_list};
use super::{Lent, message};
use crate::felica_standard::emulator::doors;
use crate::felica_standard::{ServiceAttribute, ServiceCode};
use crate::hex::{hex, hex_codes};
use crate::refusal::{NO_MESSAGE, OUTPUT_SHORT, Refusal};
use crate::tree::{Card, usable};

/// The answer to a question that is one.
pub fn answer(card: &mut Card, lent: Lent, asked: &Question) -> Result<String, Refusal> {
    Ok(match asked {
        Question::List { parent, packet } => {
            let list = code_list(card, *parent, *packet)?;
            written(lent.room, message::of_list(&list))?
        }
        Question::Info(nodes) => {
            let information = block_information(card, lent.arena, nodes)?;
            written(lent.room, message::of_information(&information))?
        }
        Question::ReadList(bytes) => read_list(bytes).ok_or(NO_MESSAGE)?,
        Question::ReadInfo(bytes) => read_information(bytes).ok_or(NO_MESSAGE)?,
        Question::Total(code) => card.total(*code).to_string(),
        Question::Version(code) => format!("{:04X}", card.key_version(*code)),
        // The room holds whole numbers of two bytes.
        Question::Directory => hex_codes(&card.directory(lent.room / 2)?),
        Question::Areas(codes) => yes_or_no(card.area_list(codes)),
        Question::Services(codes) => yes_or_no(card.service_list(codes)),
        Question::Block { code, number } => block(card, lent.arena, *code, *number),
        Question::Used => card.used().to_string(),
        Question::Attribute(code) => attribute(*code),
        Question::Room(_) | Question::Arena(_) => unreachable!("these print nothing"),
    })
}

/// A message in hex, or 5 if the output has no room for it.
fn written(room: usize, message: Vec<u8>) -> Result<String, Refusal> {
    if room < message.len() {
        return Err(OUTPUT_SHORT);
    }
    Ok(hex(&message))
}

/// The fields of a code list.
fn read_list(bytes: &[u8]) -> Option<String> {
    let list = message::to_list(bytes)?;
    let areas = list.areas.iter();
    let areas: Vec<u16> = areas
        .flat_map(|area| [area.area_code, area.end_service_code])
        .collect();
    let services = list.services.iter().map(|service| service.raw());
    let services: Vec<u16> = services.collect();
    let flag = u8::from(list.continue_flag);
    let (areas, services) = (hex_codes(&areas), hex_codes(&services));
    Some(format!("{flag}\t{areas}\t{services}"))
}

/// The fields of block information.
fn read_information(bytes: &[u8]) -> Option<String> {
    let information = message::to_information(bytes)?;
    let assigned = hex_codes(&information.assigned_block_counts);
    let free = hex_codes(&information.free_block_counts);
    Some(format!("{assigned}\t{free}"))
}

fn yes_or_no(yes: bool) -> String {
    if yes { "yes" } else { "no" }.to_string()
}

/// A stored block; none if there is no such block, or the arena is shorter than the blocks in use.
fn block(card: &Card, arena: usize, code: u16, number: u32) -> String {
    let stored = doors::block(card.rust(), code, number as usize);
    let stored = stored.filter(|_| usable(arena) >= card.used());
    stored.map_or("-".to_string(), |block| hex(&block))
}

/// What a code says of its service: number, kind, right, and whether it needs a key.
fn attribute(code: u16) -> String {
    let code = ServiceCode::new(code);
    let number = code.number();
    let (kind, right) = match code.attribute() {
        None => return format!("{number}\t-\t-\t-"),
        Some(ServiceAttribute::RandomReadWrite) => ("random", "read-write"),
        Some(ServiceAttribute::RandomReadOnly) => ("random", "read-only"),
        Some(ServiceAttribute::CyclicReadWrite) => ("cyclic", "read-write"),
        Some(ServiceAttribute::CyclicReadOnly) => ("cyclic", "read-only"),
        Some(ServiceAttribute::PurseDirect) => ("purse", "direct"),
        Some(ServiceAttribute::PurseCashback) => ("purse", "cashback"),
        Some(ServiceAttribute::PurseDecrement) => ("purse", "decrement"),
        Some(ServiceAttribute::PurseReadOnly) => ("purse", "read-only"),
    };
    let key = if code.requires_key() { "key" } else { "free" };
    format!("{number}\t{kind}\t{right}\t{key}")
}
