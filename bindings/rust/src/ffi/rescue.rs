//! Rescues.

use super::{accepted, bytes_of, with_room, SMALL_ROOM};
use crate::cause::Refused;

/// `struct adf_loss`.
#[repr(C)]
#[derive(Clone, Copy)]
pub(crate) struct LossRecord {
    pub path: usize,
    pub path_length: usize,
    pub first: u32,
    pub last: u32,
    pub why: u8,
}

/// `struct adf_rescue_told`.
#[repr(C)]
#[derive(Clone, Copy, Default)]
pub(crate) struct RescueTold {
    pub losses: usize,
    pub paths: usize,
    pub blocks: u32,
    pub block: u32,
}

extern "C" {
    fn adf_rescue(
        image: *const u8,
        length: usize,
        blocks: u32,
        room: *mut u8,
        room_length: usize,
        losses: *mut LossRecord,
        losses_room: usize,
        paths: *mut u8,
        paths_room: usize,
        told: *mut RescueTold,
    ) -> u8;
    fn adf_rescue_types(
        image: *const u8,
        length: usize,
        blocks: u32,
        room: *mut u8,
        room_length: usize,
        losses: *mut LossRecord,
        losses_room: usize,
        paths: *mut u8,
        paths_room: usize,
        told: *mut RescueTold,
    ) -> u8;
}

/// An image, read as if it had so many blocks unless they are 0, and whether its rescue keeps its letters.
#[derive(Clone, Copy)]
pub(crate) struct Damaged<'image> {
    pub image: &'image [u8],
    pub blocks: u32,
    pub keeps_type: bool,
}

/// The volume of a rescue, and what is not in it, as `adf_rescue` tells.
pub(crate) struct RescueTables {
    pub told: RescueTold,
    pub volume: Vec<u8>,
    pub losses: Vec<LossRecord>,
    pub paths: Vec<u8>,
}

/// How much room is given for the volume, for losses, and for the bytes of their paths.
#[derive(Clone, Copy, PartialEq)]
struct Rooms {
    volume: usize,
    losses: usize,
    paths: usize,
}

impl Rooms {
    /// As much room, and no less than what is told asks for.
    fn with_all(self, told: &RescueTold) -> Rooms {
        Rooms {
            volume: self.volume.max((told.blocks as usize).saturating_mul(512)),
            losses: self.losses.max(told.losses),
            paths: self.paths.max(told.paths),
        }
    }
}

/// Rescues an image, and fills tables with so much room: what the call answers, and the tables with the whole numbers.
fn rescue_into(damaged: Damaged<'_>, rooms: Rooms) -> Result<(u8, RescueTables), Refused> {
    let (mut volume, mut losses, mut paths) = (with_room(rooms.volume)?, with_room(rooms.losses)?, with_room(rooms.paths)?);
    let (volume_room, losses_room, paths_room) = (volume.capacity(), losses.capacity(), paths.capacity());
    let mut told = RescueTold::default();
    let call = if damaged.keeps_type { adf_rescue_types } else { adf_rescue };
    // "A pointer to bytes has as many bytes as its length or room says", and "buffers and structs need not be initialised".
    let answer = unsafe {
        call(
            damaged.image.as_ptr(),
            damaged.image.len(),
            damaged.blocks,
            volume.as_mut_ptr(),
            volume_room,
            losses.as_mut_ptr(),
            losses_room,
            paths.as_mut_ptr(),
            paths_room,
            &mut told,
        )
    };
    if answer == 0 {
        // "the room begins with the volume, of told->blocks * 512 bytes"; "told->losses and told->paths are the whole numbers": so
        // many were written, and no more than there is room for.
        unsafe {
            volume.set_len((told.blocks as usize).saturating_mul(512).min(volume_room));
            losses.set_len(told.losses.min(losses_room));
            paths.set_len(told.paths.min(paths_room));
        }
    }
    Ok((answer, RescueTables { told, volume, losses, paths }))
}

/// Rescues an image: its volume, which may be longer, and whole tables.
pub(crate) fn rescue(damaged: Damaged<'_>) -> Result<RescueTables, Refused> {
    let volume = if damaged.blocks == 0 { damaged.image.len() } else { bytes_of(damaged.blocks) };
    let mut rooms = Rooms { volume, losses: 1024, paths: 1 << 16 };
    loop {
        let (answer, tables) = rescue_into(damaged, rooms)?;
        let wanted = rooms.with_all(&tables.told);
        if wanted == rooms || (answer != 0 && answer != SMALL_ROOM) {
            let block = tables.told.block;
            return accepted(answer).map(|()| tables).map_err(|cause| Refused { cause, block });
        }
        rooms = wanted;
    }
}
