//! A soft FeliCa card: safe calls of the proved library `libhandset.a`.
//!
//! A [`Card`] owns its bytes; the blocks of its services lie in an arena that the caller lends. Every call checks the
//! card's bytes and all lengths for itself, so nothing has to be checked before a call. `include/uluvoli.h` says what
//! each call means; the names here are the same.
#![deny(missing_docs)]

mod answer;
mod ffi;
mod messages;

use answer::{done, replied};
pub use answer::{Cause, Failure, Refusal};
pub use messages::{BlockInformation, CodeList};

/// Bytes of a card.
pub const CARD_SIZE: usize = 1376;
/// Bytes of stack that a call takes, at most.
pub const STACK: usize = 16_384;
/// Bytes of a block.
pub const BLOCK_SIZE: usize = 16;
/// Lanes of a board.
pub const LANES: usize = 8;
/// Areas and services of a packet, together.
pub const PACKET_MOST: usize = 16;
/// Bytes of a code list, at most.
pub const CODE_LIST_MOST: usize = 67;
/// Nodes of block information, at most.
pub const ASKED_MOST: usize = 32;
/// Bytes of block information, at most.
pub const INFORMATION_MOST: usize = 129;
/// The code that names the system.
pub const SYSTEM: u16 = 0xffff;

/// A read or a write, but for its data.
#[derive(Clone, Copy, Debug)]
pub struct Request<'a> {
    /// True for an open request, which no service that needs a key serves; false in a session.
    pub open: bool,
    /// The service codes, at most 16.
    pub codes: &'a [u16],
    /// How many elements the list has, at most 512.
    pub count: u32,
    /// The elements, packed.
    pub list: &'a [u8],
}

/// A filled lane of a board.
#[derive(Clone, Debug, PartialEq, Eq)]
pub struct Lane {
    /// The race's number.
    pub race: u16,
    /// The crew's code, without trailing spaces.
    pub crew: String,
}

/// A card, as its bytes.
#[derive(Clone, Debug, PartialEq, Eq)]
pub struct Card([u8; CARD_SIZE]);

/// A lane from its record: filled, length, race low byte first, crew and zeros.
fn lane(record: &[u8]) -> Option<Lane> {
    let race = u16::from_le_bytes([record[2], record[3]]);
    let crew = &record[4..4 + record[1] as usize];
    (record[0] == 1).then(|| Lane {
        race,
        crew: String::from_utf8_lossy(crew).into_owned(),
    })
}

impl Card {
    /// A card with nothing but its root area. A service may join a store of its own block count alone.
    pub fn new(system: u16, version: u16) -> Self {
        Card::with(system, version, false)
    }

    /// A card with nothing but its root area, on which a service may join a store of any block count.
    pub fn joining(system: u16, version: u16) -> Self {
        Card::with(system, version, true)
    }

    /// A new card that joins, or does not.
    fn with(system: u16, version: u16, join: bool) -> Self {
        let mut bytes = [0; CARD_SIZE];
        // SAFETY: the pointer is valid for its length.
        unsafe { ffi::uluvoli_new(bytes.as_mut_ptr(), CARD_SIZE, system, version, join) };
        Card(bytes)
    }

    /// A card from bytes that were kept. Bytes that no calls build are refused by every call, with 8.
    pub fn from_bytes(bytes: [u8; CARD_SIZE]) -> Self {
        Card(bytes)
    }

    /// The card's bytes, to keep.
    pub fn as_bytes(&self) -> &[u8; CARD_SIZE] {
        &self.0
    }

    /// Adds an area from `code` to `end` under the latest node of depth - 1.
    pub fn add_area(
        &mut self,
        depth: u32,
        code: u16,
        end: u16,
        version: u16,
    ) -> Result<(), Refusal> {
        // SAFETY: the pointer is valid for its length, and lent for writing.
        done(unsafe {
            ffi::uluvoli_add_area(self.0.as_mut_ptr(), CARD_SIZE, depth, code, end, version)
        })
    }

    /// Adds a service. The first of its number makes a zeroed store in the arena; a later one joins it, and
    /// has to name its block count where the card does not join.
    pub fn add_service(
        &mut self,
        arena: &mut [u8],
        depth: u32,
        code: u16,
        blocks: u32,
        version: u16,
    ) -> Result<(), Refusal> {
        let (card, lent) = (self.0.as_mut_ptr(), arena.as_mut_ptr());
        // SAFETY: both pointers are valid for their lengths, lent for writing, and apart.
        done(unsafe {
            ffi::uluvoli_add_service(
                card,
                CARD_SIZE,
                lent,
                arena.len(),
                depth,
                code,
                blocks,
                version,
            )
        })
    }

    /// Sets the purse limits of the node added last, which must be a service.
    pub fn set_limit(&mut self, upper: i32, lower: i32, generation: u8) -> Result<(), Refusal> {
        // SAFETY: the pointer is valid for its length, and lent for writing.
        done(unsafe {
            ffi::uluvoli_set_limit(self.0.as_mut_ptr(), CARD_SIZE, upper, lower, generation)
        })
    }

    /// Sets a stored block, whatever its service's kind.
    pub fn set_block(
        &self,
        arena: &mut [u8],
        code: u16,
        number: u32,
        block: &[u8; BLOCK_SIZE],
    ) -> Result<(), Refusal> {
        let (lent, arena_len) = (arena.as_mut_ptr(), arena.len());
        // SAFETY: the pointers are valid for their lengths; the arena is lent for writing, and apart.
        done(unsafe {
            ffi::uluvoli_set_block(
                self.0.as_ptr(),
                CARD_SIZE,
                lent,
                arena_len,
                code,
                number,
                block.as_ptr(),
                BLOCK_SIZE,
            )
        })
    }

    /// Reads the elements' blocks to the front of `out`, 16 bytes for each element.
    pub fn read(&self, arena: &[u8], out: &mut [u8], request: &Request) -> Result<(), Failure> {
        // SAFETY: the pointers are valid for their lengths; the output is lent for writing, and apart.
        replied(unsafe {
            ffi::uluvoli_read(
                self.0.as_ptr(),
                CARD_SIZE,
                arena.as_ptr(),
                arena.len(),
                out.as_mut_ptr(),
                out.len(),
                request.open,
                request.codes.as_ptr(),
                request.codes.len(),
                request.count,
                request.list.as_ptr(),
                request.list.len(),
            )
        })
    }

    /// Writes `data`, 16 bytes for each element, to the elements' blocks: all of it or nothing. The staging needs 16
    /// bytes for each block in use.
    pub fn write(
        &self,
        arena: &mut [u8],
        staging: &mut [u8],
        request: &Request,
        data: &[u8],
    ) -> Result<(), Failure> {
        // SAFETY: the pointers are valid for their lengths; arena and staging are lent for writing, and all are apart.
        replied(unsafe {
            ffi::uluvoli_write(
                self.0.as_ptr(),
                CARD_SIZE,
                arena.as_mut_ptr(),
                arena.len(),
                staging.as_mut_ptr(),
                staging.len(),
                request.open,
                request.codes.as_ptr(),
                request.codes.len(),
                request.count,
                request.list.as_ptr(),
                request.list.len(),
                data.as_ptr(),
                data.len(),
            )
        })
    }

    /// Reads the first eight blocks of a service in a session, and gives the board that they make, lane 1 first; `None`
    /// is an empty lane.
    pub fn board(&self, arena: &[u8], code: u16) -> Result<[Option<Lane>; LANES], Failure> {
        let mut lanes = [0; LANES * BLOCK_SIZE];
        // SAFETY: the pointers are valid for their lengths; the lanes are lent for writing, and apart.
        replied(unsafe {
            ffi::uluvoli_board(
                self.0.as_ptr(),
                CARD_SIZE,
                arena.as_ptr(),
                arena.len(),
                code,
                lanes.as_mut_ptr(),
                lanes.len(),
            )
        })?;
        Ok(std::array::from_fn(|k| {
            lane(&lanes[BLOCK_SIZE * k..][..BLOCK_SIZE])
        }))
    }

    /// Writes the tree to the front of `out`, a pair for each node, and gives how many nodes there are.
    pub fn directory(&self, out: &mut [u16]) -> Result<usize, Refusal> {
        let mut nodes = 0;
        // SAFETY: the pointers are valid for their lengths; output and count are lent for writing.
        done(unsafe {
            ffi::uluvoli_directory(
                self.0.as_ptr(),
                CARD_SIZE,
                out.as_mut_ptr(),
                out.len(),
                &mut nodes,
            )
        })?;
        Ok(nodes)
    }

    /// How many blocks a service's store has, or the services under an area; 0 for an unknown code.
    pub fn total(&self, code: u16) -> Result<u16, Refusal> {
        let mut blocks = 0;
        // SAFETY: the pointers are valid; the number is lent for writing.
        done(unsafe { ffi::uluvoli_total(self.0.as_ptr(), CARD_SIZE, code, &mut blocks) })?;
        Ok(blocks)
    }

    /// The key version of the system, a service or an area; FFFF for an unknown code.
    pub fn key_version(&self, code: u16) -> Result<u16, Refusal> {
        let mut version = 0;
        // SAFETY: the pointers are valid; the number is lent for writing.
        done(unsafe { ffi::uluvoli_key_version(self.0.as_ptr(), CARD_SIZE, code, &mut version) })?;
        Ok(version)
    }

    /// Whether an area list of a mutual authentication is well formed.
    pub fn area_list(&self, areas: &[u16]) -> Result<bool, Refusal> {
        let mut well_formed = false;
        // SAFETY: the pointers are valid for their lengths; the flag is lent for writing.
        done(unsafe {
            ffi::uluvoli_area_list(
                self.0.as_ptr(),
                CARD_SIZE,
                areas.as_ptr(),
                areas.len(),
                &mut well_formed,
            )
        })?;
        Ok(well_formed)
    }

    /// Whether a service list of a mutual authentication is well formed.
    pub fn service_list(&self, services: &[u16]) -> Result<bool, Refusal> {
        let mut well_formed = false;
        // SAFETY: the pointers are valid for their lengths; the flag is lent for writing.
        done(unsafe {
            ffi::uluvoli_service_list(
                self.0.as_ptr(),
                CARD_SIZE,
                services.as_ptr(),
                services.len(),
                &mut well_formed,
            )
        })?;
        Ok(well_formed)
    }

    /// Writes a packet of the direct children of an area to the front of `out` as a code list, and gives how many bytes
    /// it has: at most [`CODE_LIST_MOST`].
    pub fn code_list(&self, parent: u16, packet: u32, out: &mut [u8]) -> Result<usize, Refusal> {
        let mut bytes = 0;
        // SAFETY: the pointers are valid for their lengths; output and count are lent for writing.
        done(unsafe {
            ffi::uluvoli_code_list(
                self.0.as_ptr(),
                CARD_SIZE,
                parent,
                packet,
                out.as_mut_ptr(),
                out.len(),
                &mut bytes,
            )
        })?;
        Ok(bytes)
    }

    /// Writes block information of the nodes `codes` to the front of `out`, and gives how many bytes it has: at most
    /// [`INFORMATION_MOST`].
    pub fn block_information(
        &self,
        arena: &[u8],
        codes: &[u16],
        out: &mut [u8],
    ) -> Result<usize, Refusal> {
        let mut bytes = 0;
        // SAFETY: the pointers are valid for their lengths; output and count are lent for writing.
        done(unsafe {
            ffi::uluvoli_block_information(
                self.0.as_ptr(),
                CARD_SIZE,
                arena.as_ptr(),
                arena.len(),
                codes.as_ptr(),
                codes.len(),
                out.as_mut_ptr(),
                out.len(),
                &mut bytes,
            )
        })?;
        Ok(bytes)
    }

    /// The sixteen bytes of a stored block, which are the arena's own.
    pub fn stored_block<'a>(
        &self,
        arena: &'a [u8],
        code: u16,
        number: u32,
    ) -> Result<&'a [u8], Refusal> {
        let mut offset = 0;
        // SAFETY: the pointers are valid for their lengths; the offset is lent for writing.
        done(unsafe {
            ffi::uluvoli_stored_block(
                self.0.as_ptr(),
                CARD_SIZE,
                arena.as_ptr(),
                arena.len(),
                code,
                number,
                &mut offset,
            )
        })?;
        Ok(&arena[offset..offset + BLOCK_SIZE])
    }
}
