use crate::Entry;
use std::convert::TryFrom;
use std::io::{Error, ErrorKind, Read, Result, Seek, SeekFrom};

/// A file of a volume, to read and seek, as [`Entry::open`] gives it. A directory has no bytes.
#[derive(Clone, Debug)]
pub struct Reader<'volume> {
    entry: Entry<'volume>,
    at: u64,
}

impl<'volume> Entry<'volume> {
    /// The file as one that can be read and sought in; the volume is in memory, so it needs no buffer.
    ///
    /// # Examples
    ///
    /// ```
    /// use std::io::{Read, Seek, SeekFrom};
    /// let image = adf::run(&["build"], b"volume ofs 1760\nfile 0:0:0 00000000 readme\ndata 48656c6c6f0a\n").into_output()?;
    /// let volume = adf::Volume::check(&image)?;
    /// let (mut file, mut text) = (volume.find("readme")?.open(), String::new());
    /// file.seek(SeekFrom::End(-3))?;
    /// file.read_to_string(&mut text)?;
    /// assert_eq!(text, "lo\n");
    /// # Ok::<(), Box<dyn std::error::Error>>(())
    /// ```
    pub fn open(&self) -> Reader<'volume> {
        Reader { entry: *self, at: 0 }
    }
}

impl Read for Reader<'_> {
    fn read(&mut self, room: &mut [u8]) -> Result<usize> {
        let count = usize::try_from(self.at).map_or(0, |at| self.entry.read_at(room, at));
        self.at += count as u64;
        Ok(count)
    }
}

impl Seek for Reader<'_> {
    fn seek(&mut self, to: SeekFrom) -> Result<u64> {
        let (from, by) = match to {
            SeekFrom::Start(at) => (at, 0),
            SeekFrom::End(by) => (u64::from(self.entry.size()), by),
            SeekFrom::Current(by) => (self.at, by),
        };
        let at = if by < 0 { from.checked_sub(by.unsigned_abs()) } else { from.checked_add(by.unsigned_abs()) };
        self.at = at.ok_or_else(|| Error::new(ErrorKind::InvalidInput, "no place in a file"))?;
        Ok(self.at)
    }
}
