//! Texts of numbers, and the version.

extern "C" {
    fn adf_cause_text(cause: u8, room: *mut u8, room_length: usize) -> usize;
    fn adf_version() -> u32;
    fn adf_disk_cause_text(cause: u8, room: *mut u8, room_length: usize) -> usize;
    fn adf_partition_fault_text(fault: u8, room: *mut u8, room_length: usize) -> usize;
}

/// The version of the library.
pub(crate) fn version() -> u32 {
    // It takes nothing, and the caller owes nothing.
    unsafe { adf_version() }
}

/// What the library has a text for.
#[derive(Clone, Copy)]
pub(crate) enum Numbered {
    Cause,
    DiskCause,
    PartitionFault,
}

/// The text of a number; if it has none, `unknown NAME NUMBER`.
pub(crate) fn text(numbered: Numbered, number: u8) -> String {
    let (call, name): (unsafe extern "C" fn(u8, *mut u8, usize) -> usize, _) = match numbered {
        Numbered::Cause => (adf_cause_text, "cause"),
        Numbered::DiskCause => (adf_disk_cause_text, "cause"),
        Numbered::PartitionFault => (adf_partition_fault_text, "fault"),
    };
    let mut room = [0; 64];
    // "A pointer to bytes has as many bytes as its length or room says".
    let length = unsafe { call(number, room.as_mut_ptr(), room.len()) };
    match length {
        0 => format!("unknown {name} {number}"),
        _ => String::from_utf8_lossy(&room[..length.min(room.len())]).into_owned(),
    }
}
