//! Whole hard disks.

use super::{accepted, with_room};
use crate::cause::Refused;

/// `struct adf_partition`.
#[repr(C)]
#[derive(Clone, Copy)]
pub(crate) struct PartitionRecord {
    pub first: u64,
    pub blocks: u64,
    pub block: u32,
    pub flags: u32,
    pub priority: i32,
    pub dos_type: u32,
    pub fault: u8,
    pub name_length: u8,
    pub name: [u8; 31],
}

/// `struct adf_disk`.
#[repr(C)]
#[derive(Clone, Copy, Default)]
pub(crate) struct DiskRecord {
    pub partitions: usize,
    pub block: u32,
    pub cause: u8,
}

extern "C" {
    fn adf_disk_index(
        bytes: *const u8,
        length: usize,
        blocks: u64,
        partitions: *mut PartitionRecord,
        room: usize,
        disk: *mut DiskRecord,
    ) -> u8;
}

/// Reads the partitions of a disk of so many blocks from its first bytes.
pub(crate) fn disk(bytes: &[u8], blocks: u64) -> Result<(DiskRecord, Vec<PartitionRecord>), Refused> {
    const MOST_PARTITIONS: usize = 1024;
    let mut partitions = with_room::<PartitionRecord>(MOST_PARTITIONS)?;
    let room = partitions.capacity();
    let mut disk = DiskRecord::default();
    // "A pointer to bytes has as many bytes as its length or room says", and "buffers and structs need not be initialised".
    let answer = unsafe { adf_disk_index(bytes.as_ptr(), bytes.len(), blocks, partitions.as_mut_ptr(), room, &mut disk) };
    accepted(answer).map_err(|cause| Refused { cause, block: 0 })?;
    // "fills a table with them, as far as there is room"; "disk->partitions is the whole number": so many were written, and no more
    // than there is room for.
    unsafe { partitions.set_len(disk.partitions.min(room)) };
    Ok((disk, partitions))
}
