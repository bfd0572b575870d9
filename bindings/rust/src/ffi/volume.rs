//! The tables of a volume.

use super::{accepted, looked_up, with_room, Date};
use crate::cause::{NotFound, Refused};

/// `struct adf_entry`.
#[repr(C)]
#[derive(Clone, Copy)]
pub(crate) struct Record {
    pub parent: u32,
    pub header: u32,
    pub size: u32,
    pub first: u32,
    pub protection: u32,
    pub date: Date,
    pub is_file: u8,
    pub name_length: u8,
    pub name: [u8; 30],
    pub comment_length: u8,
    pub comment: [u8; 79],
}

/// `struct adf_contents`.
#[repr(C)]
#[derive(Clone, Copy, Default)]
pub(crate) struct Contents {
    pub kind: u32,
    pub blocks: u32,
    pub used: u32,
    pub free: u32,
    pub entries: usize,
    pub data_blocks: usize,
    pub block: u32,
    pub root: Date,
    pub altered: Date,
    pub created: Date,
    pub label_length: u8,
    pub label: [u8; 30],
}

extern "C" {
    fn adf_index_types(
        image: *const u8,
        length: usize,
        entries: *mut Record,
        entries_room: usize,
        blocks: *mut u32,
        blocks_room: usize,
        contents: *mut Contents,
    ) -> u8;
    fn adf_owners_types(image: *const u8, length: usize, roles: *mut u8, room: usize) -> u8;
    fn adf_find_types(
        kind: u32,
        entries: *const Record,
        count: usize,
        path: *const u8,
        path_length: usize,
        node: *mut usize,
    ) -> u8;
    fn adf_read(
        image: *const u8,
        length: usize,
        entries: *const Record,
        entries_count: usize,
        blocks: *const u32,
        blocks_count: usize,
        node: usize,
        offset: usize,
        room: *mut u8,
        room_length: usize,
    ) -> usize;
}

/// The tables of a volume, as `adf_index_types` makes them.
pub(crate) struct Tables {
    pub contents: Contents,
    pub entries: Vec<Record>,
    pub blocks: Vec<u32>,
}

/// Checks an image and makes its tables.
pub(crate) fn index(image: &[u8]) -> Result<Tables, Refused> {
    let most = image.len() / 512;
    let (mut entries, mut blocks) = (with_room::<Record>(most)?, with_room::<u32>(most)?);
    let (entries_room, blocks_room) = (entries.capacity(), blocks.capacity());
    let mut contents = Contents::default();
    // "A pointer to bytes has as many bytes as its length or room says", and "buffers and structs need not be initialised".
    let answer = unsafe {
        adf_index_types(
            image.as_ptr(),
            image.len(),
            entries.as_mut_ptr(),
            entries_room,
            blocks.as_mut_ptr(),
            blocks_room,
            &mut contents,
        )
    };
    accepted(answer).map_err(|cause| Refused { cause, block: contents.block })?;
    // "fills two tables, each as far as there is room"; "contents->entries and contents->data_blocks are the whole numbers": so
    // many were written, and no more than there is room for.
    unsafe {
        entries.set_len(contents.entries.min(entries_room));
        blocks.set_len(contents.data_blocks.min(blocks_room));
    }
    entries.shrink_to_fit();
    blocks.shrink_to_fit();
    Ok(Tables { contents, entries, blocks })
}

/// The number of the role of each block of an image.
pub(crate) fn owners(image: &[u8]) -> Result<Vec<u8>, Refused> {
    let mut roles = with_room(image.len() / 512)?;
    roles.resize(image.len() / 512, 0);
    // "A pointer to bytes has as many bytes as its length or room says".
    let answer = unsafe { adf_owners_types(image.as_ptr(), image.len(), roles.as_mut_ptr(), roles.len()) };
    accepted(answer).map_err(|cause| Refused { cause, block: 0 })?;
    Ok(roles)
}

/// The number of the entry under a path in escape form, 0 for the root.
pub(crate) fn find(tables: &Tables, path: &[u8]) -> Result<usize, NotFound> {
    let mut node = 0;
    // "A pointer to bytes has as many bytes as its length or room says"; "node is at most count".
    let (kind, entries) = (tables.contents.kind, &tables.entries);
    let answer = unsafe { adf_find_types(kind, entries.as_ptr(), entries.len(), path.as_ptr(), path.len(), &mut node) };
    looked_up(answer, node)
}

/// Puts bytes of a file from an offset on into the room, and answers how many.
pub(crate) fn read(image: &[u8], tables: &Tables, node: usize, offset: usize, room: &mut [u8]) -> usize {
    let (entries, blocks) = (&tables.entries, &tables.blocks);
    // "What it writes (not const) overlaps nothing else that is passed"; "as many as there are and fit, and returns how many".
    unsafe {
        adf_read(
            image.as_ptr(),
            image.len(),
            entries.as_ptr(),
            entries.len(),
            blocks.as_ptr(),
            blocks.len(),
            node,
            offset,
            room.as_mut_ptr(),
            room.len(),
        )
    }
}
