use crate::ffi::{self, Numbered};
use crate::numbered::numbered;
use std::error::Error;
use std::fmt;

numbered! {
    /// Why an image is refused. The numbers are those of `enum adf_cause` in include/adf.h, which says what each one means.
    Cause(u8):
    BadSize = 1,
    NotDos = 2,
    International = 3,
    DirCache = 4,
    OutOfRange = 5,
    Taken = 6,
    BadSum = 7,
    BadType = 8,
    Link = 9,
    BadOwnKey = 10,
    BadParent = 11,
    BadName = 12,
    BadComment = 13,
    WrongSlot = 14,
    BadFirst = 15,
    SameName = 16,
    BadHashSize = 17,
    NotValidated = 18,
    ShortFile = 19,
    BadData = 20,
    LostBlock = 21,
    OwnedFree = 22,
    /// An allocation failed. Nothing is said about the image.
    NoMemory = 23,
}

/// The text that `adf check` writes, such as `bad sum`.
impl fmt::Display for Cause {
    fn fmt(&self, f: &mut fmt::Formatter<'_>) -> fmt::Result {
        f.write_str(&ffi::text(Numbered::Cause, self.number()))
    }
}

/// An image is refused: its first fault, and the block it is in. Shown as `block 880: bad sum`.
#[derive(Clone, Copy, Debug, PartialEq, Eq, Hash)]
pub struct Refused {
    /// What is wrong.
    pub cause: Cause,
    /// The number of the block, 0 if an allocation failed.
    pub block: u32,
}

impl fmt::Display for Refused {
    fn fmt(&self, f: &mut fmt::Formatter<'_>) -> fmt::Result {
        write!(f, "block {}: {}", self.block, self.cause)
    }
}

impl Error for Refused {}

/// Why no entry is found under a path.
#[derive(Clone, Copy, Debug, PartialEq, Eq, Hash)]
#[non_exhaustive]
pub enum NotFound {
    /// Nothing has this path.
    Nothing,
    /// The text is not a path.
    NoPath,
    /// An allocation failed.
    NoMemory,
    /// A number that this crate does not know: the library is newer than the crate.
    Unknown(u8),
}

impl fmt::Display for NotFound {
    fn fmt(&self, f: &mut fmt::Formatter<'_>) -> fmt::Result {
        match self {
            NotFound::Nothing => f.write_str("no such path"),
            NotFound::NoPath => f.write_str("bad path"),
            NotFound::NoMemory => f.write_str("no memory"),
            NotFound::Unknown(number) => write!(f, "unknown answer {number}"),
        }
    }
}

impl Error for NotFound {}
