//! The bytes of the two messages, and what bytes say. Which bytes they are is ours, not the Rust's.

use super::lists::{MOST_NODES, PACKET};
use crate::felica_standard::{
    AreaCodeRange, RequestBlockInformationExResult, RequestCodeListResult, ServiceCode,
};

/// Numbers of 16 bits, low byte first.
fn halves(numbers: impl IntoIterator<Item = u16>) -> Vec<u8> {
    numbers.into_iter().flat_map(u16::to_le_bytes).collect()
}

/// A code list: flag, how many areas, code and end of each, how many services, their codes.
pub fn of_list(list: &RequestCodeListResult) -> Vec<u8> {
    let areas = list.areas.iter();
    let areas = halves(areas.flat_map(|area| [area.area_code, area.end_service_code]));
    let services = halves(list.services.iter().map(|service| service.raw()));
    let mut bytes = vec![u8::from(list.continue_flag), list.areas.len() as u8];
    bytes.extend(areas);
    bytes.push(list.services.len() as u8);
    bytes.extend(services);
    bytes
}

/// Block information: how many nodes, what is assigned to each, what is free for each.
pub fn of_information(information: &RequestBlockInformationExResult) -> Vec<u8> {
    let assigned = information.assigned_block_counts.iter();
    let counts = assigned.chain(&information.free_block_counts).copied();
    let mut bytes = vec![information.assigned_block_counts.len() as u8];
    bytes.extend(halves(counts));
    bytes
}

/// Bytes that are read from the front; each step gives nothing where they end too early.
struct Reader<'a>(&'a [u8]);

impl Reader<'_> {
    /// One byte.
    fn byte(&mut self) -> Option<u8> {
        let (&byte, rest) = self.0.split_first()?;
        self.0 = rest;
        Some(byte)
    }

    /// A number of 16 bits.
    fn half(&mut self) -> Option<u16> {
        Some(u16::from(self.byte()?) | u16::from(self.byte()?) << 8)
    }

    /// So many numbers of 16 bits.
    fn halves(&mut self, count: usize) -> Option<Vec<u16>> {
        (0..count).map(|_| self.half()).collect()
    }
}

/// The code list that bytes say; none if they are no message of at most sixteen entries.
pub fn to_list(bytes: &[u8]) -> Option<RequestCodeListResult> {
    let mut reader = Reader(bytes);
    let continue_flag = match reader.byte()? {
        0 => false,
        1 => true,
        _ => return None,
    };
    let area_count = usize::from(reader.byte()?);
    let areas = reader.halves(2 * area_count)?;
    let service_count = usize::from(reader.byte()?);
    let services = reader.halves(service_count)?;
    let within = area_count + service_count <= PACKET && reader.0.is_empty();
    within.then(|| RequestCodeListResult {
        continue_flag,
        areas: (areas.as_chunks().0.iter())
            .map(|&[code, end]| AreaCodeRange::new(code, end))
            .collect(),
        services: services.into_iter().map(ServiceCode::new).collect(),
    })
}

/// The block information that bytes say; none if they are no message of at most 32 nodes.
pub fn to_information(bytes: &[u8]) -> Option<RequestBlockInformationExResult> {
    let mut reader = Reader(bytes);
    let count = usize::from(reader.byte()?);
    let information = RequestBlockInformationExResult {
        assigned_block_counts: reader.halves(count)?,
        free_block_counts: reader.halves(count)?,
    };
    (count <= MOST_NODES && reader.0.is_empty()).then_some(information)
}
