#![doc = include_str!("../README.md")]
#![warn(missing_docs, missing_debug_implementations)]

mod boot;
mod building;
mod cause;
mod command;
mod counted;
mod disk;
mod ffi;
mod found_file;
mod link;
mod numbered;
mod opened;
mod reader;
mod remains;
mod rescue;
mod role;
mod subject;
mod survey;
mod text;

pub use boot::{with_boot, with_standard_boot, without_boot, Boot, BootRefusal};
pub use building::{build, Addition, BuildRefusal, Dates, NotBuilt};
pub use cause::{Cause, NotFound, Refused};
pub use command::{run, survey, Answer, Failed};
pub use disk::{Disk, DiskCause, DiskFault, Partition, PartitionFault, Partitions};
pub use ffi::Date;
pub use found_file::{FoundFile, Parts};
pub use link::{Link, LinkKind};
pub use opened::{open, open_blocks, Opened};
pub use reader::Reader;
#[allow(deprecated)]
pub use remains::remains;
pub use remains::{remains_of, Remains};
pub use rescue::{rescue, rescue_blocks, LeftOut, Reason, Rescue};
pub use role::{Kind, Role};
pub use survey::{Finding, Found, FoundEntries, Survey};
pub use text::{escape, unescape, Text};

use counted::counted;
use std::borrow::Cow;
use std::fmt;
use std::time::{Duration, SystemTime};

/// The version of the library: 10000 for each major version, 100 for each minor one.
pub fn version() -> u32 {
    ffi::version()
}

impl Date {
    /// The moment, if the date is read as UTC; `None` if it has more minutes than a day, or more ticks than a minute.
    pub fn to_system_time(self) -> Option<SystemTime> {
        const DAYS_TO_1978: u64 = 2922;
        let is_date = self.mins < 24 * 60 && self.ticks < 60 * 50;
        let seconds = (u64::from(self.days) + DAYS_TO_1978) * 86_400 + u64::from(self.mins) * 60;
        let moment = Duration::from_secs(seconds) + Duration::from_millis(20 * u64::from(self.ticks));
        is_date.then(|| SystemTime::UNIX_EPOCH + moment)
    }
}

/// A sound volume: an image that was checked, and the tables of its entries.
pub struct Volume<'image> {
    image: Cow<'image, [u8]>,
    tables: ffi::Tables,
}

impl<'image> Volume<'image> {
    /// Checks an image of type 0 to 3.
    ///
    /// # Errors
    ///
    /// The first fault of an image that is not a volume. `Cause::NoMemory` says nothing about the image.
    ///
    /// # Examples
    ///
    /// ```
    /// assert_eq!(adf::Volume::check(&[0; 8192]).unwrap_err().to_string(), "block 0: not dos");
    /// ```
    pub fn check(image: &'image [u8]) -> Result<Volume<'image>, Refused> {
        Ok(Volume { tables: ffi::index(image)?, image: Cow::Borrowed(image) })
    }

    /// Checks an image, and keeps its bytes in the volume, which then borrows nothing.
    ///
    /// # Errors
    ///
    /// As of [`Volume::check`].
    pub fn check_owned(image: Vec<u8>) -> Result<Volume<'static>, Refused> {
        Ok(Volume { tables: ffi::index(&image)?, image: Cow::Owned(image) })
    }

    /// The bytes of the image.
    pub fn image(&self) -> &[u8] {
        &self.image
    }

    /// How its data blocks are written, and which letters its names have.
    pub fn kind(&self) -> Kind {
        self.tables.contents.kind.into()
    }

    /// All blocks of 512 bytes, the two boot blocks included.
    pub fn blocks(&self) -> u32 {
        self.tables.contents.blocks
    }

    /// Blocks that parts of the volume own, so without the two boot blocks.
    pub fn used(&self) -> u32 {
        self.tables.contents.used
    }

    /// Blocks from 2 on that no part owns.
    pub fn free(&self) -> u32 {
        self.tables.contents.free
    }

    /// The name of the volume.
    pub fn label(&self) -> Text<'_> {
        let contents = &self.tables.contents;
        Text::of(&contents.label, contents.label_length)
    }

    /// The date of the root directory.
    pub fn date(&self) -> Date {
        self.tables.contents.root
    }

    /// The date of the last change of the volume.
    pub fn altered(&self) -> Date {
        self.tables.contents.altered
    }

    /// The date of the volume's creation.
    pub fn created(&self) -> Date {
        self.tables.contents.created
    }

    /// The root directory.
    pub fn root(&self) -> Entry<'_> {
        Entry { volume: self, number: 0 }
    }

    /// All directories and files, without the root. A directory comes before what is in it. The entries of one directory are next to
    /// each other, in the order of the slots and chains of the disk.
    pub fn entries(&self) -> Entries<'_> {
        Entries { volume: self, numbers: 1..self.tables.entries.len() + 1 }
    }

    /// The role of each block. The image is checked once more for it.
    ///
    /// # Errors
    ///
    /// `Cause::NoMemory` alone.
    pub fn owners(&self) -> Result<Vec<Role>, Refused> {
        let roles = ffi::owners(&self.image)?;
        Ok(roles.into_iter().map(Role::from).collect())
    }

    /// The entry under a path: names with `/` between them, as `Entry::path` has it. The case of a to z is ignored; with
    /// international letters, that of all letters of Latin-1. The empty path is the root's. A character that is not in Latin-1 is in no
    /// path.
    ///
    /// # Errors
    ///
    /// `NotFound::Nothing`, `NotFound::NoPath`, `NotFound::NoMemory`.
    ///
    /// # Examples
    ///
    /// ```
    /// let image = adf::run(&["build"], b"volume ofs 1760\nfile 0:0:0 00000000 B\\xfccher\n").into_output()?;
    /// let volume = adf::Volume::check(&image)?;
    /// assert_eq!(volume.find("b\u{fc}cher")?.number(), volume.find_bytes(b"B\xfccher")?.number());
    /// # Ok::<(), Box<dyn std::error::Error>>(())
    /// ```
    pub fn find(&self, path: impl AsRef<str>) -> Result<Entry<'_>, NotFound> {
        self.find_bytes(&text::to_latin(path.as_ref()).ok_or(NotFound::NoPath)?)
    }

    /// The entry under the bytes of a path, as `Entry::path_bytes` has them.
    ///
    /// # Errors
    ///
    /// As of [`Volume::find`].
    pub fn find_bytes(&self, path: &[u8]) -> Result<Entry<'_>, NotFound> {
        let number = ffi::find(&self.tables, escape(path).as_bytes())?;
        Ok(Entry { volume: self, number })
    }
}

impl fmt::Debug for Volume<'_> {
    fn fmt(&self, f: &mut fmt::Formatter<'_>) -> fmt::Result {
        let (kind, blocks, entries) = (self.kind(), self.blocks(), self.tables.entries.len());
        f.debug_struct("Volume").field("kind", &kind).field("blocks", &blocks).field("entries", &entries).finish_non_exhaustive()
    }
}

counted! {
    /// Entries of a volume.
    Entries<'volume> { volume: &'volume Volume<'volume> } -> Entry<'volume>: |number| Entry { volume, number }
}

impl<'volume> IntoIterator for &'volume Volume<'_> {
    type Item = Entry<'volume>;
    type IntoIter = Entries<'volume>;

    fn into_iter(self) -> Entries<'volume> {
        self.entries()
    }
}

/// A directory or file of a volume. The root is one too; it has no name, comment or protection.
#[derive(Clone, Copy)]
pub struct Entry<'volume> {
    volume: &'volume Volume<'volume>,
    number: usize,
}

impl<'volume> Entry<'volume> {
    fn record(&self) -> Option<&'volume ffi::Record> {
        self.volume.tables.entries.get(self.number.checked_sub(1)?)
    }

    /// The number of the entry: 0 for the root, the others from 1 in the order of `Volume::entries`.
    pub fn number(&self) -> usize {
        self.number
    }

    /// Whether it is a file.
    pub fn is_file(&self) -> bool {
        self.record().map_or(false, |record| record.is_file == 1)
    }

    /// The name, which the root has none of.
    pub fn name(&self) -> Text<'volume> {
        self.record().map(|record| Text::of(&record.name, record.name_length)).unwrap_or_default()
    }

    /// The comment, which may be empty.
    pub fn comment(&self) -> Text<'volume> {
        self.record().map(|record| Text::of(&record.comment, record.comment_length)).unwrap_or_default()
    }

    /// Bytes of a file, 0 for a directory.
    pub fn size(&self) -> u32 {
        self.record().map_or(0, |record| record.size)
    }

    /// The protection word; a set bit of 0 to 3 forbids.
    pub fn protection(&self) -> u32 {
        self.record().map_or(0, |record| record.protection)
    }

    /// The date of the entry.
    pub fn date(&self) -> Date {
        self.record().map_or(self.volume.date(), |record| record.date)
    }

    /// The block of the header; for the root, the root block.
    pub fn header(&self) -> u32 {
        self.record().map_or(self.volume.blocks() / 2, |record| record.header)
    }

    /// The directory that the entry is in, `None` for the root.
    pub fn parent(&self) -> Option<Entry<'volume>> {
        self.record().map(|record| Entry { volume: self.volume, number: record.parent as usize })
    }

    /// What is in a directory; nothing for a file.
    pub fn children(&self) -> Entries<'volume> {
        let Entry { volume, number } = *self;
        let entries = &volume.tables.entries;
        let first = entries.partition_point(|record| (record.parent as usize) < number);
        let behind = entries.partition_point(|record| (record.parent as usize) <= number);
        Entries { volume, numbers: first + 1..behind + 1 }
    }

    /// The path as `Volume::find` takes it: names with `/` between them, their bytes read as Latin-1; empty for the root.
    pub fn path(&self) -> String {
        text::from_latin(&self.path_bytes())
    }

    /// The bytes of the path; `escape` of them is what `adf list` writes.
    pub fn path_bytes(&self) -> Vec<u8> {
        let named = |entry: &Entry<'volume>| entry.parent().filter(|parent| parent.number != 0);
        let mut names: Vec<&[u8]> = std::iter::successors(Some(*self), named).map(|entry| entry.name().as_bytes()).collect();
        names.reverse();
        names.join(&b'/')
    }

    /// Copies the bytes of a file from an offset on into the room, as many as there are and fit, and returns how many: 0 for a
    /// directory, and past the end.
    pub fn read_at(&self, room: &mut [u8], offset: usize) -> usize {
        ffi::read(&self.volume.image, &self.volume.tables, self.number, offset, room)
    }

    /// The bytes of a file; none for a directory.
    pub fn read(&self) -> Vec<u8> {
        let mut bytes = vec![0; self.size() as usize];
        let length = self.read_at(&mut bytes, 0);
        bytes.truncate(length);
        bytes
    }
}

impl fmt::Debug for Entry<'_> {
    fn fmt(&self, f: &mut fmt::Formatter<'_>) -> fmt::Result {
        f.debug_struct("Entry").field("path", &self.path()).field("size", &self.size()).finish_non_exhaustive()
    }
}
