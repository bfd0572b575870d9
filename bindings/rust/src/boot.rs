use crate::ffi::{self, BootRecord};
use crate::numbered::numbered;
use crate::Volume;
use std::error::Error;
use std::fmt;

numbered! {
    /// Why an image has no boot blocks, or gets none. The numbers are those of `enum adf_boot_refusal` in include/adf.h.
    BootRefusal(u8):
    BadSize = 1,
    NotDos = 2,
    BadSourceSize = 3,
    SourceNotDos = 4,
}

impl fmt::Display for BootRefusal {
    fn fmt(&self, f: &mut fmt::Formatter<'_>) -> fmt::Result {
        f.write_str(match self {
            BootRefusal::BadSize => "bad size",
            BootRefusal::NotDos => "not dos",
            BootRefusal::BadSourceSize => "boot blocks: bad size",
            BootRefusal::SourceNotDos => "boot blocks: not dos",
            BootRefusal::Unknown(number) => return write!(f, "unknown refusal {number}"),
        })
    }
}

impl Error for BootRefusal {}

/// The boot blocks of an image: their 1,024 bytes, and what they say.
#[derive(Clone)]
pub struct Boot {
    bytes: [u8; ffi::BOOT_BYTES],
    told: BootRecord,
}

impl Boot {
    /// The boot blocks at the front of an image, or of a file of them.
    ///
    /// # Errors
    ///
    /// `BadSize` if there are no 1,024 bytes.
    pub fn of(image: &[u8]) -> Result<Boot, BootRefusal> {
        let told = done(ffi::boot(image))?;
        let mut bytes = [0; ffi::BOOT_BYTES];
        bytes.copy_from_slice(image.get(..ffi::BOOT_BYTES).ok_or(BootRefusal::BadSize)?);
        Ok(Boot { bytes, told })
    }

    /// Their bytes.
    pub fn as_bytes(&self) -> &[u8] {
        &self.bytes
    }

    /// The CRC-32 of the bytes, as `adf-boot` writes it.
    pub fn crc(&self) -> u32 {
        self.told.crc
    }

    /// Whether they begin with `DOS`.
    pub fn begins_with_dos(&self) -> bool {
        self.told.begins_with_dos != 0
    }

    /// Byte 3: the type of the volume, if they begin with `DOS`.
    pub fn volume_type(&self) -> u8 {
        self.told.volume_type
    }

    /// Whether their checksum is right.
    pub fn has_right_sum(&self) -> bool {
        self.told.has_right_sum != 0
    }

    /// Whether an Amiga starts their code: they begin with `DOS`, and their sum is right.
    pub fn is_bootable(&self) -> bool {
        self.told.is_bootable != 0
    }

    /// Whether there is something but zeros behind the type.
    pub fn has_code(&self) -> bool {
        self.told.has_code != 0
    }
}

impl AsRef<[u8]> for Boot {
    fn as_ref(&self) -> &[u8] {
        &self.bytes
    }
}

impl fmt::Debug for Boot {
    fn fmt(&self, f: &mut fmt::Formatter<'_>) -> fmt::Result {
        f.debug_tuple("Boot").field(&self.told).finish()
    }
}

impl Volume<'_> {
    /// The boot blocks of the image.
    ///
    /// # Errors
    ///
    /// None of an image that is a volume; a newer library may have one.
    pub fn boot(&self) -> Result<Boot, BootRefusal> {
        Boot::of(self.image())
    }
}

/// The image with other boot blocks: a `Boot`, those of another image, or the bytes of a file of them. It keeps its type, and gets the
/// checksum with which an Amiga starts it.
///
/// # Errors
///
/// Why the image gets none, or what the source lacks.
pub fn with_boot(image: &[u8], boot: impl AsRef<[u8]>) -> Result<Vec<u8>, BootRefusal> {
    changed(image, |room| ffi::boot_copy(room, boot.as_ref()))
}

/// The image with boot blocks that start AmigaDOS.
///
/// # Errors
///
/// Why the image gets none.
///
/// # Examples
///
/// ```
/// let image = adf::run(&["build"], b"volume ofs 1760\n").into_output()?;
/// let image = adf::with_standard_boot(&image)?;
/// assert!(adf::Boot::of(&image)?.is_bootable());
/// # Ok::<(), Box<dyn std::error::Error>>(())
/// ```
pub fn with_standard_boot(image: &[u8]) -> Result<Vec<u8>, BootRefusal> {
    changed(image, ffi::boot_install)
}

/// The image with zeros behind the type in its boot blocks.
///
/// # Errors
///
/// Why the image gets none.
pub fn without_boot(image: &[u8]) -> Result<Vec<u8>, BootRefusal> {
    changed(image, ffi::boot_clear)
}

fn changed(image: &[u8], change: impl FnOnce(&mut [u8]) -> u8) -> Result<Vec<u8>, BootRefusal> {
    let mut room = image.to_vec();
    done((change(&mut room), room))
}

fn done<T>((number, told): (u8, T)) -> Result<T, BootRefusal> {
    match number {
        0 => Ok(told),
        _ => Err(number.into()),
    }
}
