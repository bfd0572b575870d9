//! Volumes that are built.

use super::Date;

/// `struct adf_addition`.
#[repr(C)]
#[derive(Clone, Copy)]
pub(crate) struct AdditionRecord {
    pub parent: usize,
    pub begin: usize,
    pub size: usize,
    pub protection: u32,
    pub date: Date,
    pub is_file: u8,
    pub name_length: u8,
    pub name: [u8; 30],
    pub comment_length: u8,
    pub comment: [u8; 79],
}

impl Default for AdditionRecord {
    fn default() -> AdditionRecord {
        let (parent, begin, size, protection, date) = (0, 0, 0, 0, Date::default());
        let (is_file, name_length, name, comment_length, comment) = (0, 0, [0; 30], 0, [0; 79]);
        AdditionRecord { parent, begin, size, protection, date, is_file, name_length, name, comment_length, comment }
    }
}

/// `struct adf_new_volume`.
#[repr(C)]
#[derive(Clone, Copy, Default)]
pub(crate) struct NewVolume {
    pub kind: u32,
    pub blocks: u32,
    pub root: Date,
    pub altered: Date,
    pub created: Date,
    pub label_length: u8,
    pub label: [u8; 30],
}

/// `struct adf_built`.
#[repr(C)]
#[derive(Clone, Copy, Default)]
pub(crate) struct Built {
    pub addition: usize,
    pub need: u64,
    pub have: u64,
    pub blocks: u32,
}

extern "C" {
    fn adf_build(
        volume: *const NewVolume,
        additions: *const AdditionRecord,
        count: usize,
        contents: *const u8,
        contents_length: usize,
        room: *mut u8,
        room_length: usize,
        built: *mut Built,
    ) -> u8;
    fn adf_need(
        volume: *const NewVolume,
        additions: *const AdditionRecord,
        count: usize,
        contents: *const u8,
        contents_length: usize,
        built: *mut Built,
    ) -> u8;
}

/// Builds a volume at the front of a room: the number of a refusal, or 0, and what is told beside it.
pub(crate) fn build(volume: &NewVolume, additions: &[AdditionRecord], contents: &[u8], room: &mut [u8]) -> (u8, Built) {
    let mut built = Built::default();
    let (count, length, size) = (additions.len(), contents.len(), room.len());
    // "A pointer to bytes has as many bytes as its length or room says, and one to structs or numbers as many elements as its room
    // or count says".
    let number =
        unsafe { adf_build(volume, additions.as_ptr(), count, contents.as_ptr(), length, room.as_mut_ptr(), size, &mut built) };
    (number, built)
}

/// The smallest volume for additions: the number of a refusal, or 0, and what is told beside it.
pub(crate) fn need(volume: &NewVolume, additions: &[AdditionRecord], contents: &[u8]) -> (u8, Built) {
    let mut built = Built::default();
    let (count, length) = (additions.len(), contents.len());
    // "A pointer to bytes has as many bytes as its length or room says, and one to structs or numbers as many elements as its room
    // or count says".
    let number = unsafe { adf_need(volume, additions.as_ptr(), count, contents.as_ptr(), length, &mut built) };
    (number, built)
}
