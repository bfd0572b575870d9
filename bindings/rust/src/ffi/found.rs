//! Files and blocks of a damaged image.

use super::{accepted, with_room};
use crate::cause::Refused;

/// `struct adf_part`.
#[repr(C)]
#[derive(Clone, Copy, Default)]
pub(crate) struct PartRecord {
    pub node: usize,
    pub number: u32,
}

extern "C" {
    fn adf_survey_parts(image: *const u8, length: usize, parts: *mut PartRecord, room: usize) -> u8;
    fn adf_survey_owners(image: *const u8, length: usize, roles: *mut u8, room: usize) -> u8;
    fn adf_found_blocks(
        image: *const u8,
        length: usize,
        parts: *const PartRecord,
        parts_count: usize,
        node: usize,
        header: u32,
        blocks: *mut u32,
        blocks_room: usize,
    ) -> usize;
    fn adf_found_read(
        image: *const u8,
        length: usize,
        header: u32,
        blocks: *const u32,
        blocks_count: usize,
        offset: usize,
        room: *mut u8,
        room_length: usize,
        lost: *mut usize,
    ) -> usize;
}

/// What the survey of an image has at each block.
pub(crate) fn parts(image: &[u8]) -> Result<Vec<PartRecord>, Refused> {
    let mut parts = with_room(image.len() / 512)?;
    parts.resize(image.len() / 512, PartRecord::default());
    // "one to structs or numbers as many elements as its room or count says".
    let answer = unsafe { adf_survey_parts(image.as_ptr(), image.len(), parts.as_mut_ptr(), parts.len()) };
    accepted(answer).map_err(|cause| Refused { cause, block: 0 })?;
    Ok(parts)
}

/// The number of the role of each block, as the survey of an image finds it.
pub(crate) fn found_owners(image: &[u8]) -> Result<Vec<u8>, Refused> {
    let mut roles = with_room(image.len() / 512)?;
    roles.resize(image.len() / 512, 0);
    // "A pointer to bytes has as many bytes as its length or room says".
    let answer = unsafe { adf_survey_owners(image.as_ptr(), image.len(), roles.as_mut_ptr(), roles.len()) };
    accepted(answer).map_err(|cause| Refused { cause, block: 0 })?;
    Ok(roles)
}

/// The table of a file that is found, by the rows of `parts`.
pub(crate) fn found_blocks(image: &[u8], parts: &[PartRecord], node: usize, header: u32) -> Result<Vec<u32>, Refused> {
    let into = |blocks: &mut [u32]| {
        let (rows, room) = (parts.as_ptr(), blocks.as_mut_ptr());
        // "one to structs or numbers as many elements as its room or count says".
        unsafe { adf_found_blocks(image.as_ptr(), image.len(), rows, parts.len(), node, header, room, blocks.len()) }
    };
    let count = into(&mut []);
    let mut blocks = with_room(count)?;
    blocks.resize(count, u32::MAX);
    into(&mut blocks);
    Ok(blocks)
}

/// Puts the bytes of a found file from an offset on, up to those that are lost, into the room; how many, and how many are lost.
pub(crate) fn found_read(image: &[u8], header: u32, blocks: &[u32], offset: usize, room: &mut [u8]) -> (usize, usize) {
    let mut lost = 0;
    let (table, to) = (blocks.as_ptr(), room.as_mut_ptr());
    // "What it writes (not const) overlaps nothing else that is passed".
    let count =
        unsafe { adf_found_read(image.as_ptr(), image.len(), header, table, blocks.len(), offset, to, room.len(), &mut lost) };
    (count, lost)
}
