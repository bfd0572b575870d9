//! The calls of include/adf.h over slices. All that is `unsafe` in this crate stands here; above each block is the sentence of
//! the header that allows it.
//!
//! A slice by itself meets some of the header's demands: its pointer is not null, leads to as many bytes as it says, and its length is
//! at most PTRDIFF_MAX; nobody writes what is borrowed here, and what is borrowed mutably overlaps nothing.

mod boot;
mod building;
mod command;
mod disk;
mod found;
mod rescue;
mod survey;
mod text;
mod volume;

pub(crate) use boot::*;
pub(crate) use building::*;
pub(crate) use command::*;
pub(crate) use disk::*;
pub(crate) use found::*;
pub(crate) use rescue::*;
pub(crate) use survey::*;
pub(crate) use text::*;
pub(crate) use volume::*;

use crate::cause::{Cause, NotFound, Refused};

/// `struct adf_date`.
#[repr(C)]
#[derive(Clone, Copy, Debug, Default, PartialEq, Eq, PartialOrd, Ord, Hash)]
pub struct Date {
    /// Days since 1978-01-01.
    pub days: u32,
    /// Minutes of the day.
    pub mins: u32,
    /// Fiftieths of a second in the minute.
    pub ticks: u32,
}

/// What `adf_rescue` and `adf_survey_subject` answer, if more room is wanted than was given.
const SMALL_ROOM: u8 = 24;

/// The most blocks of a volume.
pub(crate) const MOST_BLOCKS: u32 = 1 << 23;

/// The bytes of so many blocks.
pub(crate) fn bytes_of(blocks: u32) -> usize {
    (blocks as usize).saturating_mul(512)
}

/// What is there of an image of so many blocks, if a volume can have so many.
pub(crate) fn cut(image: &[u8], blocks: u32) -> Result<&[u8], Refused> {
    match blocks {
        1..=MOST_BLOCKS => Ok(&image[..image.len().min(bytes_of(blocks))]),
        _ => Err(Refused { cause: Cause::BadSize, block: 0 }),
    }
}

/// A vector with room for so many, if there is memory.
fn with_room<T>(count: usize) -> Result<Vec<T>, Refused> {
    let mut room = Vec::new();
    match room.try_reserve_exact(count) {
        Ok(()) => Ok(room),
        Err(_) => Err(Refused { cause: Cause::NoMemory, block: 0 }),
    }
}

/// What a call answers that refuses: 0 alone accepts, also for a library that is newer than this crate.
fn accepted(answer: u8) -> Result<(), Cause> {
    match answer {
        0 => Ok(()),
        _ => Err(answer.into()),
    }
}

/// What a look-up answers.
fn looked_up(answer: u8, node: usize) -> Result<usize, NotFound> {
    match answer {
        0 => Ok(node),
        1 => Err(NotFound::Nothing),
        2 => Err(NotFound::NoPath),
        _ if Cause::from(answer) == Cause::NoMemory => Err(NotFound::NoMemory),
        _ => Err(NotFound::Unknown(answer)),
    }
}

#[cfg(test)]
mod tests;
