use crate::ffi::{self, AdditionRecord, Built, NewVolume};
use crate::numbered::numbered;
use crate::{Date, Kind};
use std::collections::HashMap;
use std::error::Error;
use std::fmt;

numbered! {
    /// Why no volume is built. The numbers are those of `enum adf_build_refusal` in include/adf.h.
    BuildRefusal(u8):
    BadKind = 1,
    BadLabel = 2,
    BadSize = 3,
    SmallRoom = 4,
    NoParent = 5,
    ParentIsFile = 6,
    BadName = 7,
    Exists = 8,
    BadComment = 9,
    PastContents = 10,
    Full = 11,
    NoMemory = 23,
}

impl fmt::Display for BuildRefusal {
    fn fmt(&self, f: &mut fmt::Formatter<'_>) -> fmt::Result {
        f.write_str(match self {
            BuildRefusal::BadKind => "no kind of volume",
            BuildRefusal::BadLabel => "a label is longer than 30 bytes",
            BuildRefusal::BadSize => "bad size",
            BuildRefusal::SmallRoom => "the room is too small",
            BuildRefusal::NoParent => "no parent",
            BuildRefusal::ParentIsFile => "parent is file",
            BuildRefusal::BadName => "no name of an Amiga",
            BuildRefusal::Exists => "exists",
            BuildRefusal::BadComment => "a comment is longer than 79 bytes",
            BuildRefusal::PastContents => "past the contents",
            BuildRefusal::Full => "full",
            BuildRefusal::NoMemory => "no memory",
            BuildRefusal::Unknown(number) => return write!(f, "unknown refusal {number}"),
        })
    }
}

/// Why no volume is built; the number of the entry that has the fault, from 1, or 0; for a tree that does not fit the blocks that
/// it needs and those that there are, without the two boot blocks.
#[derive(Clone, Copy, Debug, PartialEq, Eq)]
pub struct NotBuilt {
    /// Why.
    pub refusal: BuildRefusal,
    /// The number of the entry that has the fault, from 1, or 0.
    pub number: usize,
    /// The blocks that the tree needs, if it is `Full`.
    pub need: u64,
    /// The blocks that there are, if it is `Full`.
    pub have: u64,
}

impl fmt::Display for NotBuilt {
    fn fmt(&self, f: &mut fmt::Formatter<'_>) -> fmt::Result {
        match self.refusal {
            BuildRefusal::Full => write!(f, "full: need {}, have {}", self.need, self.have),
            refusal if self.number > 0 => write!(f, "entry {}: {refusal}", self.number),
            refusal => refusal.fmt(f),
        }
    }
}

impl Error for NotBuilt {}

/// A directory or file to build: its path, names with `/` between them; its bytes, or `None` for a directory.
#[derive(Clone, Copy, Debug, Default)]
pub struct Addition<'a> {
    /// The bytes of its path.
    pub path: &'a [u8],
    /// The bytes of a file; `None` for a directory.
    pub content: Option<&'a [u8]>,
    /// The bytes of its comment, at most 79.
    pub comment: &'a [u8],
    /// The protection word; a set bit of 0 to 3 forbids.
    pub protection: u32,
    /// The date of the entry.
    pub date: Date,
}

/// The dates of a new volume: of the root, of the last change and of the creation.
#[derive(Clone, Copy, Debug, Default)]
pub struct Dates {
    /// That of the root.
    pub root: Date,
    /// That of the last change.
    pub altered: Date,
    /// That of the creation.
    pub created: Date,
}

/// Builds the image of a volume with these entries, each directory before what is in it; without a number of blocks the smallest.
///
/// # Errors
///
/// Why no volume is built, and the number of the entry that has the fault.
///
/// # Examples
///
/// ```
/// use adf::{build, Addition, Dates, Kind, Volume};
/// let directory = Addition { path: b"c", ..Addition::default() };
/// let file = Addition { path: b"c/list", content: Some(b"Hi\n"), ..Addition::default() };
/// let image = build(Kind::Ffs, Some(1760), &[directory, file], b"Work", Dates::default())?;
/// assert_eq!(Volume::check(&image)?.find("c/list")?.read(), b"Hi\n");
/// # Ok::<(), Box<dyn std::error::Error>>(())
/// ```
pub fn build(kind: Kind, blocks: Option<u32>, entries: &[Addition<'_>], label: &[u8], dates: Dates) -> Result<Vec<u8>, NotBuilt> {
    let (additions, contents) = table(kind, entries);
    let mut volume = NewVolume {
        kind: kind.number(),
        root: dates.root,
        altered: dates.altered,
        created: dates.created,
        ..NewVolume::default()
    };
    volume.label_length = filled(&mut volume.label, label);
    volume.blocks = match blocks {
        Some(blocks) => blocks,
        None => done(ffi::need(&volume, &additions, &contents))?,
    };
    let bytes = if volume.blocks <= ffi::MOST_BLOCKS { 512 * volume.blocks as usize } else { 0 };
    let mut image = Vec::new();
    image.try_reserve_exact(bytes).map_err(|_| NotBuilt { refusal: BuildRefusal::NoMemory, number: 0, need: 0, have: 0 })?;
    image.resize(bytes, 0);
    done(ffi::build(&volume, &additions, &contents, &mut image))?;
    Ok(image)
}

/// A path in upper case, by the letters of a kind.
fn uppercase(kind: Kind, path: &[u8]) -> Vec<u8> {
    let is_international = matches!(kind, Kind::OfsInternational | Kind::FfsInternational);
    let upper = |byte: &u8| match byte {
        0xe0..=0xf6 | 0xf8..=0xfe if is_international => byte - 32,
        _ => byte.to_ascii_uppercase(),
    };
    path.iter().map(upper).collect()
}

/// The table of the entries of a volume of a kind, and the contents of all files. A path without its directory before it gets a number that no entry has.
fn table(kind: Kind, entries: &[Addition<'_>]) -> (Vec<AdditionRecord>, Vec<u8>) {
    let (mut records, mut contents) = (Vec::new(), Vec::new());
    let mut numbers = HashMap::from([(Vec::new(), 0)]);
    for (place, entry) in entries.iter().enumerate() {
        let path = uppercase(kind, entry.path);
        let slash = entry.path.iter().rposition(|byte| *byte == b'/');
        let parent = match slash {
            Some(0) => place + 1,
            slash => numbers.get(&path[..slash.unwrap_or(0)]).copied().unwrap_or(place + 1),
        };
        let bytes = entry.content.unwrap_or_default();
        let mut record = AdditionRecord {
            parent,
            begin: contents.len(),
            size: bytes.len(),
            protection: entry.protection,
            date: entry.date,
            is_file: entry.content.is_some().into(),
            ..AdditionRecord::default()
        };
        record.name_length = filled(&mut record.name, &entry.path[slash.map_or(0, |at| at + 1)..]);
        record.comment_length = filled(&mut record.comment, entry.comment);
        records.push(record);
        contents.extend_from_slice(bytes);
        numbers.entry(path).or_insert(place + 1);
    }
    (records, contents)
}

/// Puts a text into a field. A length above that of the field says that it is too long.
fn filled(field: &mut [u8], text: &[u8]) -> u8 {
    let count = text.len().min(field.len());
    field[..count].copy_from_slice(&text[..count]);
    text.len().try_into().unwrap_or(u8::MAX)
}

fn done((number, built): (u8, Built)) -> Result<u32, NotBuilt> {
    match number {
        0 => Ok(built.blocks),
        _ => Err(NotBuilt { refusal: number.into(), number: built.addition, need: built.need, have: built.have }),
    }
}
