use crate::counted::counted;
use crate::ffi::{self, DiskRecord, Numbered, PartitionRecord};
use crate::numbered::numbered;
use crate::{text, NotFound, Refused, Text};
use std::error::Error;
use std::fmt;

numbered! {
    /// What is wrong with the tables of a disk. The numbers are those of `enum adf_disk_cause` in include/adf.h.
    DiskCause(u8):
    NoRigidDisk = 1,
    BlockSize = 2,
    OutOfRange = 3,
    Repeated = 4,
    NoPartition = 5,
    BadSum = 6,
    TooMany = 7,
}

numbered! {
    /// What is wrong with a partition alone. The numbers are those of `enum adf_partition_fault` in include/adf.h.
    PartitionFault(u8):
    ShortEnvironment = 1,
    BlockSize = 2,
    BadCylinders = 3,
    BeyondImage = 4,
    OverTables = 5,
    OverPartition = 6,
    BadName = 7,
}

/// The text that `adf-disk` writes, such as `no rigid disk`.
impl fmt::Display for DiskCause {
    fn fmt(&self, f: &mut fmt::Formatter<'_>) -> fmt::Result {
        f.write_str(&ffi::text(Numbered::DiskCause, self.number()))
    }
}

/// The text that `adf-disk` writes, such as `beyond image`.
impl fmt::Display for PartitionFault {
    fn fmt(&self, f: &mut fmt::Formatter<'_>) -> fmt::Result {
        f.write_str(&ffi::text(Numbered::PartitionFault, self.number()))
    }
}

impl Error for PartitionFault {}

/// The first fault of the tables of a disk, and the block it is in. Shown as `block 0: no rigid disk`.
#[derive(Clone, Copy, Debug, PartialEq, Eq, Hash)]
pub struct DiskFault {
    /// What is wrong.
    pub cause: DiskCause,
    /// The number of the block.
    pub block: u32,
}

impl fmt::Display for DiskFault {
    fn fmt(&self, f: &mut fmt::Formatter<'_>) -> fmt::Result {
        write!(f, "block {}: {}", self.block, self.cause)
    }
}

impl Error for DiskFault {}

/// A whole hard disk: its partitions, in the order of its tables.
pub struct Disk<'image> {
    image: &'image [u8],
    record: DiskRecord,
    partitions: Vec<PartitionRecord>,
}

impl<'image> Disk<'image> {
    /// Reads the partitions of a disk. If the tables have a fault, `fault` reports it, and the partitions are those that can be read
    /// nevertheless.
    ///
    /// # Errors
    ///
    /// `Cause::NoMemory` alone.
    ///
    /// # Examples
    ///
    /// ```
    /// let disk = adf::Disk::of(&[0; 8192])?;
    /// assert_eq!((disk.partitions().len(), disk.fault().unwrap().to_string()), (0, "block 0: no rigid disk".to_owned()));
    /// # Ok::<(), adf::Refused>(())
    /// ```
    pub fn of(image: &'image [u8]) -> Result<Disk<'image>, Refused> {
        const MOST_TABLES: usize = 512 * 65_536;
        let tables = &image[..image.len().min(MOST_TABLES)];
        let (record, partitions) = ffi::disk(tables, image.len() as u64 / 512)?;
        Ok(Disk { image, record, partitions })
    }

    /// The first fault of the tables, if they have one.
    pub fn fault(&self) -> Option<DiskFault> {
        let DiskRecord { cause, block, .. } = self.record;
        (cause != 0).then(|| DiskFault { cause: cause.into(), block })
    }

    /// All partitions, or those that can be read.
    pub fn partitions(&self) -> Partitions<'_> {
        Partitions { disk: self, numbers: 1..self.partitions.len() + 1 }
    }

    /// The first partition with a name, a text in Latin-1. The case of a to z is ignored.
    ///
    /// # Errors
    ///
    /// `NotFound::Nothing`.
    pub fn find(&self, name: impl AsRef<str>) -> Result<Partition<'_>, NotFound> {
        self.find_bytes(&text::to_latin(name.as_ref()).ok_or(NotFound::Nothing)?)
    }

    /// The first partition whose name has these bytes. The case of a to z is ignored.
    ///
    /// # Errors
    ///
    /// `NotFound::Nothing`.
    pub fn find_bytes(&self, name: &[u8]) -> Result<Partition<'_>, NotFound> {
        self.partitions().find(|partition| partition.name().as_bytes().eq_ignore_ascii_case(name)).ok_or(NotFound::Nothing)
    }

    /// [`Disk::find_bytes`] of the bytes of a text or of others.
    #[deprecated(note = "find takes a text, and find_bytes bytes, as those of a volume")]
    pub fn named(&self, name: impl AsRef<[u8]>) -> Option<Partition<'_>> {
        self.find_bytes(name.as_ref()).ok()
    }
}

impl fmt::Debug for Disk<'_> {
    fn fmt(&self, f: &mut fmt::Formatter<'_>) -> fmt::Result {
        f.debug_struct("Disk").field("partitions", &self.partitions.len()).field("fault", &self.fault()).finish()
    }
}

counted! {
    /// The partitions of a disk.
    Partitions<'disk> { disk: &'disk Disk<'disk> } -> Partition<'disk>: |number| Partition { disk, place: number - 1 }
}

impl<'disk> IntoIterator for &'disk Disk<'_> {
    type Item = Partition<'disk>;
    type IntoIter = Partitions<'disk>;

    fn into_iter(self) -> Partitions<'disk> {
        self.partitions()
    }
}

/// A partition of a hard disk.
#[derive(Clone, Copy)]
pub struct Partition<'disk> {
    disk: &'disk Disk<'disk>,
    place: usize,
}

impl<'disk> Partition<'disk> {
    fn record(&self) -> &'disk PartitionRecord {
        &self.disk.partitions[self.place]
    }

    /// Its number, from 1.
    pub fn number(&self) -> usize {
        self.place + 1
    }

    /// The drive's name, which may be empty.
    pub fn name(&self) -> Text<'disk> {
        Text::of(&self.record().name, self.record().name_length)
    }

    /// The type of its file system: `DOS\0` is OFS, `DOS\x01` is FFS.
    pub fn dos_type(&self) -> [u8; 4] {
        self.record().dos_type.to_be_bytes()
    }

    /// Bit 0: a computer may start from it; bit 1: it is not mounted by itself.
    pub fn flags(&self) -> u32 {
        self.record().flags
    }

    /// The priority of starting.
    pub fn priority(&self) -> i32 {
        self.record().priority
    }

    /// The number of its partition block.
    pub fn block(&self) -> u32 {
        self.record().block
    }

    /// The first block of its volume on the disk, and how many it has.
    ///
    /// # Errors
    ///
    /// Why it has no place.
    pub fn place(&self) -> Result<(u64, u64), PartitionFault> {
        let PartitionRecord { first, blocks, fault, .. } = *self.record();
        match blocks {
            0 => Err(fault.into()),
            _ => Ok((first, blocks)),
        }
    }

    /// What is wrong with it, if something is. Its volume has a place all the same if that is the fields of its file system
    /// (`ShortEnvironment`, `BlockSize`) or its name (`BadName`).
    pub fn fault(&self) -> Option<PartitionFault> {
        let fault = self.record().fault;
        (fault != 0).then(|| fault.into())
    }

    /// The bytes of its volume, an image of its own.
    ///
    /// # Errors
    ///
    /// Why it has no place.
    pub fn volume(&self) -> Result<&'disk [u8], PartitionFault> {
        let (first, blocks) = self.place()?;
        let (from, length) = (512 * first as usize, 512 * blocks as usize);
        Ok(&self.disk.image[from..from + length])
    }
}

impl fmt::Debug for Partition<'_> {
    fn fmt(&self, f: &mut fmt::Formatter<'_>) -> fmt::Result {
        f.debug_struct("Partition").field("name", &self.name()).field("place", &self.place()).finish()
    }
}
