//! Boot blocks.

/// `ADF_BOOT_BYTES`.
pub(crate) const BOOT_BYTES: usize = 1024;

/// `struct adf_boot_blocks`.
#[repr(C)]
#[derive(Clone, Copy, Debug, Default)]
pub(crate) struct BootRecord {
    pub crc: u32,
    pub begins_with_dos: u8,
    pub volume_type: u8,
    pub has_right_sum: u8,
    pub is_bootable: u8,
    pub has_code: u8,
}

extern "C" {
    fn adf_boot(image: *const u8, length: usize, boot: *mut BootRecord) -> u8;
    fn adf_boot_install(image: *mut u8, length: usize) -> u8;
    fn adf_boot_copy(image: *mut u8, length: usize, source: *const u8, source_length: usize) -> u8;
    fn adf_boot_clear(image: *mut u8, length: usize) -> u8;
}

/// What boot blocks say: the number of a refusal, or 0, and what is told beside it.
pub(crate) fn boot(image: &[u8]) -> (u8, BootRecord) {
    let mut boot = BootRecord::default();
    // "A pointer to bytes has as many bytes as its length or room says".
    let number = unsafe { adf_boot(image.as_ptr(), image.len(), &mut boot) };
    (number, boot)
}

/// Writes standard boot blocks: the number of a refusal, or 0.
pub(crate) fn boot_install(image: &mut [u8]) -> u8 {
    // "A pointer to bytes has as many bytes as its length or room says".
    unsafe { adf_boot_install(image.as_mut_ptr(), image.len()) }
}

/// Writes the boot blocks of a source: the number of a refusal, or 0.
pub(crate) fn boot_copy(image: &mut [u8], source: &[u8]) -> u8 {
    // "What it writes (not const) overlaps nothing else that is passed".
    unsafe { adf_boot_copy(image.as_mut_ptr(), image.len(), source.as_ptr(), source.len()) }
}

/// Writes zeros in place of boot blocks: the number of a refusal, or 0.
pub(crate) fn boot_clear(image: &mut [u8]) -> u8 {
    // "A pointer to bytes has as many bytes as its length or room says".
    unsafe { adf_boot_clear(image.as_mut_ptr(), image.len()) }
}
