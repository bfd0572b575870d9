use crate::rescue::rescue_types;
use crate::{ffi, Cause, LeftOut, Refused, Volume};

/// The volume of an image, or of what stands of it.
#[derive(Debug)]
pub struct Opened<'image> {
    /// The volume: of a refused image that of its rescue, in memory, with the letters of the image.
    pub volume: Volume<'image>,
    /// Why the image is refused, if it is.
    pub refused: Option<Refused>,
    /// What is on the image and not in the volume, and what is in it in doubt; nothing if the image is sound.
    pub left_out: Vec<LeftOut>,
}

/// Opens what stands of an image: the volume of a sound one, or of a refused one that of its rescue.
///
/// # Errors
///
/// The first fault, if nothing stands. `Cause::NoMemory` says nothing about the image.
///
/// # Examples
///
/// ```
/// let mut image = adf::run(&["build"], b"volume ofs 1760\nfile 0:0:0 00000000 readme\ndata 48690a\n").into_output()?;
/// image[512 * 880 + 440] ^= 1; // a byte of the root
/// let opened = adf::open(&image)?;
/// assert_eq!(opened.refused.unwrap().to_string(), "block 880: bad sum");
/// assert_eq!(opened.volume.find("readme")?.read(), b"Hi\n");
/// # Ok::<(), Box<dyn std::error::Error>>(())
/// ```
pub fn open(image: &[u8]) -> Result<Opened<'_>, Refused> {
    let refused = match Volume::check(image) {
        Ok(volume) => return Ok(Opened { volume, refused: None, left_out: Vec::new() }),
        Err(refused) if refused.cause == Cause::NoMemory => return Err(refused),
        Err(refused) => refused,
    };
    match rescue_types(image, 0) {
        Ok(rescued) => {
            Ok(Opened { volume: Volume::check_owned(rescued.image)?, refused: Some(refused), left_out: rescued.left_out })
        }
        Err(none) if none.cause == Cause::NoMemory => Err(none),
        Err(_) => Err(refused),
    }
}

/// Opens what stands of an image as [`open`] does, read as if it had so many blocks: 1,760 for a floppy whose end is missing, or that has
/// more behind it. `refused` is then why an image with zeros for what is missing is refused.
///
/// # Errors
///
/// The first fault of an image of so many blocks, if nothing stands. `Cause::NoMemory` says nothing about the image.
///
/// # Examples
///
/// ```
/// let image = adf::run(&["build"], b"volume ofs 1760\nfile 0:0:0 00000000 readme\ndata 48690a\n").into_output()?;
/// let opened = adf::open_blocks(&image[..512 * 1000], 1760)?;
/// assert_eq!(opened.volume.find("readme")?.read(), b"Hi\n");
/// assert_eq!(opened.left_out[0].to_string(), "lost: blocks 1000 to 1759");
/// # Ok::<(), Box<dyn std::error::Error>>(())
/// ```
pub fn open_blocks(image: &[u8], blocks: u32) -> Result<Opened<'_>, Refused> {
    let given = ffi::cut(image, blocks)?;
    if given.len() == ffi::bytes_of(blocks) {
        return open(given);
    }
    let rescued = rescue_types(given, blocks)?;
    let refused = Volume::check_owned(with_zeros(given, blocks)?).err();
    Ok(Opened { volume: Volume::check_owned(rescued.image)?, refused, left_out: rescued.left_out })
}

/// An image with zeros behind it up to so many blocks.
fn with_zeros(image: &[u8], blocks: u32) -> Result<Vec<u8>, Refused> {
    let mut whole = Vec::new();
    whole.try_reserve_exact(ffi::bytes_of(blocks)).map_err(|_| Refused { cause: Cause::NoMemory, block: 0 })?;
    whole.extend_from_slice(image);
    whole.resize(ffi::bytes_of(blocks), 0);
    Ok(whole)
}
