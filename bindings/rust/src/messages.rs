//! The messages that tell what a card has, read where there is no card.

use crate::answer::{done, Refusal};
use crate::{ffi, ASKED_MOST, PACKET_MOST};

/// A packet of an area's children, in tree order.
#[derive(Clone, Debug, Default, PartialEq, Eq)]
pub struct CodeList {
    /// Whether more packets follow.
    pub more: bool,
    /// The areas, code and end of each.
    pub areas: Vec<(u16, u16)>,
    /// The codes of the services.
    pub services: Vec<u16>,
}

/// The blocks of the nodes that were asked, in their order.
#[derive(Clone, Debug, Default, PartialEq, Eq)]
pub struct BlockInformation {
    /// The blocks assigned to each.
    pub assigned: Vec<u16>,
    /// The blocks free for each.
    pub free: Vec<u16>,
}

impl CodeList {
    /// Reads the bytes of a code list. Refusal 47 for any others.
    pub fn from_bytes(message: &[u8]) -> Result<Self, Refusal> {
        let (mut areas, mut services) = ([0; 2 * PACKET_MOST], [0; PACKET_MOST]);
        let (mut area_count, mut service_count, mut more) = (0, 0, false);
        // SAFETY: the pointers are valid for their lengths; all but the message are lent for writing, and apart.
        done(unsafe {
            ffi::uluvoli_read_code_list(
                message.as_ptr(),
                message.len(),
                areas.as_mut_ptr(),
                areas.len(),
                services.as_mut_ptr(),
                services.len(),
                &mut area_count,
                &mut service_count,
                &mut more,
            )
        })?;
        let pairs = areas.chunks_exact(2).map(|pair| (pair[0], pair[1]));
        Ok(CodeList {
            more,
            areas: pairs.take(area_count).collect(),
            services: services[..service_count].to_vec(),
        })
    }
}

impl BlockInformation {
    /// Reads the bytes of block information. Refusal 47 for any others.
    pub fn from_bytes(message: &[u8]) -> Result<Self, Refusal> {
        let (mut assigned, mut free) = ([0; ASKED_MOST], [0; ASKED_MOST]);
        let mut nodes = 0;
        // SAFETY: the pointers are valid for their lengths; all but the message are lent for writing, and apart.
        done(unsafe {
            ffi::uluvoli_read_block_information(
                message.as_ptr(),
                message.len(),
                assigned.as_mut_ptr(),
                assigned.len(),
                free.as_mut_ptr(),
                free.len(),
                &mut nodes,
            )
        })?;
        Ok(BlockInformation {
            assigned: assigned[..nodes].to_vec(),
            free: free[..nodes].to_vec(),
        })
    }
}
