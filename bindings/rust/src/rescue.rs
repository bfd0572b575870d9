use crate::ffi::{self, Damaged, LossRecord};
use crate::numbered::numbered;
use crate::text::unspelled;
use crate::Refused;
use std::fmt;

/// A new, sound volume of all that exists in a damaged image.
#[derive(Clone, Debug, PartialEq, Eq)]
pub struct Rescue {
    /// The image of the new volume. It has as many blocks as the given one, or those of a floppy, if that is cut, or has tracks behind
    /// its volume.
    pub image: Vec<u8>,
    /// What the rescue leaves out, and what it keeps in doubt.
    pub left_out: Vec<LeftOut>,
}

/// Something of an image that is not in the volume of its rescue, or an entry that is in it in doubt (`is_kept`). Shown as the line of
/// `adf-survey rescue`, such as `damaged: c/list`.
#[derive(Clone, Debug, PartialEq, Eq)]
pub struct LeftOut {
    /// Why it is left out, or in doubt.
    pub reason: Reason,
    /// The path of an entry, or of the directory in which headers are lost, as `adf-survey` spells it (`Found::path`); empty for the root
    /// and for blocks. Of an entry that is renamed, the path that its header states, `: `, and the one in the new volume.
    pub path: String,
    /// The header of the entry or of the directory, 0 for the root; or the first of the blocks.
    pub first: u32,
    /// The same header; or the last of the blocks.
    pub last: u32,
}

numbered! {
    /// Why something is left out, or in doubt. The numbers are those of `enum adf_loss_why` in include/adf.h.
    Reason(u8):
    /// A file that is not whole.
    Damaged = 1,
    /// A link, which no new volume has.
    Link = 2,
    /// Its directory is left out, its name is taken, or the blocks do not suffice.
    NoRoom = 3,
    /// Headers are lost in a directory.
    Headers = 4,
    /// Blocks are lost: in use and of no entry, not in the image, behind the volume, or made anew.
    Blocks = 5,
    /// The checksum of the header is wrong: what it says may be wrong, and a directory may lack things.
    InDoubt = 6,
    /// The bitmap has the header free, or nothing tells whether the entry was deleted.
    PerhapsDeleted = 7,
    /// No directory leads to the entry: it was found by what its header says.
    FoundAgain = 8,
    /// A directory that the rescue made, for what names a lost one.
    Made = 9,
    /// The entry has another name: its own is none, or another entry has it.
    Renamed = 10,
    /// The comment of the entry is too long, and is cut.
    CommentCut = 11,
    /// The label of the volume is too long, and is cut.
    LabelCut = 12,
    /// A page of the bitmap cannot be read.
    Bitmap = 13,
}

impl LeftOut {
    /// Whether it is an entry that is in the new volume, in doubt.
    pub fn is_kept(&self) -> bool {
        matches!(self.reason, Reason::InDoubt | Reason::PerhapsDeleted | Reason::FoundAgain | Reason::Made)
    }

    /// The bytes of the path, of an entry that is renamed the stated one. A name of a damaged entry may have any, as `/`, or be `..`,
    /// which leads out of a folder.
    pub fn path_bytes(&self) -> Vec<u8> {
        let stated = self.path.split_once(": ").map_or(self.path.as_str(), |(stated, _)| stated);
        unspelled(stated).unwrap_or_default()
    }
}

impl fmt::Display for LeftOut {
    fn fmt(&self, f: &mut fmt::Formatter<'_>) -> fmt::Result {
        let LeftOut { path, first, last, .. } = self;
        match self.reason {
            Reason::Damaged => write!(f, "damaged: {path}"),
            Reason::Link => write!(f, "link: {path}"),
            Reason::NoRoom => write!(f, "no room: {path}"),
            Reason::Headers => write!(f, "lost: in {path}/"),
            Reason::Blocks if first == last => write!(f, "lost: block {first}"),
            Reason::Blocks => write!(f, "lost: blocks {first} to {last}"),
            Reason::InDoubt => write!(f, "in doubt: {path}"),
            Reason::PerhapsDeleted => write!(f, "perhaps deleted: {path}"),
            Reason::FoundAgain => write!(f, "found again: {path}"),
            Reason::Made => write!(f, "made: {path}"),
            Reason::Renamed => write!(f, "renamed: {path}"),
            Reason::CommentCut => write!(f, "comment cut: {path}"),
            Reason::LabelCut => write!(f, "label cut: block {first}"),
            Reason::Bitmap => write!(f, "bitmap: block {first}"),
            Reason::Unknown(number) => write!(f, "unknown reason {number}: {path}"),
        }
    }
}

/// Makes a new volume of all that stands in an image, as `adf-survey rescue` does.
///
/// # Errors
///
/// The first fault, if nothing stands. `Cause::NoMemory` says nothing about the image.
///
/// # Examples
///
/// ```
/// let mut image = adf::run(&["build"], b"volume ofs 1760\nfile 0:0:0 00000000 a\ndata 41\nfile 0:0:0 00000000 b\ndata 42\n").into_output()?;
/// let header = adf::Volume::check(&image)?.find("a")?.header() as usize;
/// image[512 * header..512 * header + 512].fill(0);
/// let rescue = adf::rescue(&image)?;
/// assert_eq!(adf::Volume::check(&rescue.image)?.find("b")?.read(), b"B");
/// assert!(!rescue.left_out.is_empty());
/// # Ok::<(), Box<dyn std::error::Error>>(())
/// ```
pub fn rescue(image: &[u8]) -> Result<Rescue, Refused> {
    ffi::rescue(Damaged { image, blocks: 0, keeps_type: false }).map(rescue_of)
}

/// Makes a new volume as [`rescue`] does, of an image read as if it had so many blocks; those that it does not have are lost.
///
/// # Errors
///
/// The first fault, if nothing stands. `Cause::NoMemory` says nothing about the image.
///
/// # Examples
///
/// ```
/// let image = adf::run(&["build"], b"volume ofs 1760\nfile 0:0:0 00000000 a\ndata 41\n").into_output()?;
/// let rescue = adf::rescue_blocks(&image[..512 * 1000], 1760)?;
/// assert_eq!(rescue.image.len(), image.len());
/// # Ok::<(), Box<dyn std::error::Error>>(())
/// ```
pub fn rescue_blocks(image: &[u8], blocks: u32) -> Result<Rescue, Refused> {
    ffi::rescue(Damaged { image: ffi::cut(image, blocks)?, blocks, keeps_type: false }).map(rescue_of)
}

/// Makes a new volume with the letters of the image, read as if it had so many blocks unless they are 0.
pub(crate) fn rescue_types(image: &[u8], blocks: u32) -> Result<Rescue, Refused> {
    ffi::rescue(Damaged { image, blocks, keeps_type: true }).map(rescue_of)
}

fn rescue_of(found: ffi::RescueTables) -> Rescue {
    let left_out = found.losses.iter().map(|loss| left_out_of(loss, &found.paths)).collect();
    Rescue { image: found.volume, left_out }
}

/// A row of the table of losses, with its path in the text of all paths.
fn left_out_of(loss: &LossRecord, paths: &[u8]) -> LeftOut {
    let path = paths.get(loss.path..).and_then(|rest| rest.get(..loss.path_length)).unwrap_or_default();
    LeftOut { reason: loss.why.into(), path: String::from_utf8_lossy(path).into_owned(), first: loss.first, last: loss.last }
}
