use crate::ffi::{self, PartRecord};
use crate::subject::Subject;
use crate::{Found, Refused, Role, Survey};
use std::fmt;
use std::sync::Arc;

/// What a survey has at each block: files that are found are read by it, sound or not, without a further survey.
pub struct Parts<'image> {
    image: Subject<'image>,
    rows: Arc<[PartRecord]>,
}

impl<'image> Survey<'image> {
    /// What is at each block, by which files are read in pieces. The image is surveyed once more for it when it is asked for first.
    ///
    /// # Errors
    ///
    /// `Cause::NoMemory` alone.
    ///
    /// # Examples
    ///
    /// ```
    /// let image = adf::run(&["build"], b"volume ofs 1760\nfile 0:0:0 00000000 readme\ndata 48690a\n").into_output()?;
    /// let survey = adf::Survey::of(&image)?;
    /// let (file, mut room) = (survey.parts()?.file(survey.find("readme")?)?, [0; 2]);
    /// assert_eq!((file.piece_at(&mut room, 1), room), ((2, 0), *b"i\n"));
    /// # Ok::<(), Box<dyn std::error::Error>>(())
    /// ```
    pub fn parts(&self) -> Result<Parts<'image>, Refused> {
        Ok(Parts { image: self.subject().clone(), rows: self.known_parts()? })
    }

    /// The role of each block, from a new survey of the image: `Role::Free` where nothing is, and
    /// everywhere without a root.
    ///
    /// # Errors
    ///
    /// `Cause::NoMemory` alone.
    pub fn owners(&self) -> Result<Vec<Role>, Refused> {
        Ok(ffi::found_owners(self.subject())?.into_iter().map(Role::from).collect())
    }
}

impl<'image> Parts<'image> {
    /// A file of the survey of this image; a directory has no bytes.
    ///
    /// # Errors
    ///
    /// `Cause::NoMemory` alone.
    pub fn file(&self, found: Found<'_>) -> Result<FoundFile<'image>, Refused> {
        let header = found.header();
        let blocks = ffi::found_blocks(&self.image, &self.rows, found.number(), header)?;
        Ok(FoundFile { image: self.image.clone(), header, blocks })
    }
}

impl fmt::Debug for Parts<'_> {
    fn fmt(&self, f: &mut fmt::Formatter<'_>) -> fmt::Result {
        f.debug_struct("Parts").field("blocks", &self.rows.len()).finish()
    }
}

/// A file that is found, with its data blocks, as far as they are.
pub struct FoundFile<'image> {
    image: Subject<'image>,
    header: u32,
    blocks: Vec<u32>,
}

impl FoundFile<'_> {
    /// Reads from an offset on up to what is lost, as many bytes as there are and fit. Answers how many, and how many bytes right
    /// behind them are lost. With a room of at least one byte both are 0 only from the end of the file on.
    pub fn piece_at(&self, room: &mut [u8], offset: usize) -> (usize, usize) {
        ffi::found_read(&self.image, self.header, &self.blocks, offset, room)
    }

    /// [`FoundFile::piece_at`], with its arguments in another order than those of [`Entry::read_at`](crate::Entry::read_at).
    #[deprecated(note = "piece_at has the order of Entry::read_at")]
    pub fn read_at(&self, offset: usize, room: &mut [u8]) -> (usize, usize) {
        self.piece_at(room, offset)
    }
}

impl fmt::Debug for FoundFile<'_> {
    fn fmt(&self, f: &mut fmt::Formatter<'_>) -> fmt::Result {
        f.debug_struct("FoundFile").field("header", &self.header).field("blocks", &self.blocks.len()).finish()
    }
}
