use crate::counted::counted;
use crate::ffi::{self, Date, FindingRecord, PartRecord, SubjectTold, SurveyTables};
use crate::remains::remains_of_found;
use crate::subject::Subject;
use crate::{text, Cause, Failed, Kind, NotFound, Refused, Remains, Text};
use std::fmt;
use std::sync::{Arc, Mutex, PoisonError};

/// What is found in an image by `adf-survey`: everything that is wrong, and the entries that can still be reached. Where nothing but the
/// boot block is lost, and where the files say another type, the image is surveyed as if it began with the type that its files say; a
/// floppy that is cut, or has tracks behind its volume, as if it had its blocks.
pub struct Survey<'image> {
    subject: Subject<'image>,
    told: SubjectTold,
    tables: SurveyTables,
    parts: Mutex<Option<Arc<[PartRecord]>>>,
}

impl<'image> Survey<'image> {
    /// Surveys an image, sound or not.
    ///
    /// # Errors
    ///
    /// `Cause::NoMemory` alone.
    ///
    /// # Examples
    ///
    /// ```
    /// let mut image = adf::run(&["build"], b"volume ofs 1760\nfile 0:0:0 00000000 readme\ndata 48690a\n").into_output()?;
    /// image[512 * 880 + 440] ^= 1; // a byte of the root
    /// let survey = adf::Survey::of(&image)?;
    /// assert_eq!(survey.findings().next().unwrap().cause(), adf::Cause::BadSum);
    /// assert_eq!(survey.find("readme")?.remains()?.bytes, b"Hi\n");
    /// # Ok::<(), Box<dyn std::error::Error>>(())
    /// ```
    pub fn of(image: &'image [u8]) -> Result<Survey<'image>, Refused> {
        Survey::stated(image, 0)
    }

    /// Surveys an image read as if it had so many blocks; those that it does not have are lost, and files with data in them are damaged.
    ///
    /// # Errors
    ///
    /// `Cause::BadSize` if no volume has so many blocks, and `Cause::NoMemory`.
    ///
    /// # Examples
    ///
    /// ```
    /// let image = adf::run(&["build"], b"volume ofs 1760\nfile 0:0:0 00000000 readme\ndata 48690a\n").into_output()?;
    /// let survey = adf::Survey::of_blocks(&image[..512 * 1000], 1760)?;
    /// assert_eq!((survey.blocks(), survey.find("readme")?.is_sound()), (1760, true));
    /// # Ok::<(), Box<dyn std::error::Error>>(())
    /// ```
    pub fn of_blocks(image: &'image [u8], blocks: u32) -> Result<Survey<'image>, Refused> {
        Survey::stated(ffi::cut(image, blocks)?, blocks)
    }

    /// The survey of an image, as if it had so many blocks unless they are 0.
    fn stated(image: &'image [u8], blocks: u32) -> Result<Survey<'image>, Refused> {
        let (subject, told) = Subject::of(image, blocks)?;
        let mut tables = ffi::survey(&subject)?;
        let cut = if subject.is_whole() { Vec::new() } else { subject.parts()?.1 };
        for node in cut {
            if let Some(entry) = tables.entries.get_mut(node - 1) {
                entry.is_sound = 0;
            }
        }
        if told.is_begun == 1 {
            tables.findings.try_reserve(1).map_err(|_| Refused { cause: Cause::NoMemory, block: 0 })?;
            let (first, last, node, owner, cause, is_within) = (0, 0, 0, 0, Cause::NotDos.number(), 0);
            tables.findings.insert(0, FindingRecord { first, last, node, owner, cause, is_within });
        }
        Ok(Survey { subject, told, tables, parts: Mutex::new(None) })
    }

    /// The kind, if the root is found.
    pub fn kind(&self) -> Option<Kind> {
        match (self.tables.surveyed.blocks, self.tables.surveyed.kind) {
            (0, _) => None,
            (_, kind) => Some(kind.into()),
        }
    }

    /// The label, empty if no root is found.
    pub fn label(&self) -> Text<'_> {
        let surveyed = &self.tables.surveyed;
        Text::of(&surveyed.label, surveyed.label_length)
    }

    /// The three dates of the root: its own, that of the last change, that of the creation.
    pub fn dates(&self) -> [Date; 3] {
        let surveyed = &self.tables.surveyed;
        [surveyed.root, surveyed.altered, surveyed.created]
    }

    /// Whether nothing but the boot block is lost: then the first finding says so.
    pub fn is_begun(&self) -> bool {
        self.told.is_begun == 1
    }

    /// Whether the type is not the one that the files say. There is no finding for it.
    pub fn is_retyped(&self) -> bool {
        self.told.is_retyped == 1
    }

    /// The blocks that are surveyed: those of the image, or those of a floppy, if the image is cut, or has tracks behind the volume. There
    /// is no finding for it.
    pub fn blocks(&self) -> usize {
        self.subject.len() / 512
    }

    /// What is wrong, in the order of the survey, unless `is_retyped` or `blocks` are not those of the image: nothing, if and only if
    /// `Volume::check` accepts the image.
    pub fn findings(&self) -> impl ExactSizeIterator<Item = Finding<'_>> + DoubleEndedIterator {
        (0..self.tables.findings.len()).map(|place| Finding { survey: self, place })
    }

    /// The entries that are found, each after its directory.
    pub fn entries(&self) -> FoundEntries<'_> {
        FoundEntries { survey: self, numbers: 1..self.tables.entries.len() + 1 }
    }

    pub(crate) fn subject(&self) -> &Subject<'image> {
        &self.subject
    }

    /// The entry under a path, of several the first: names with `/` between them, in Latin-1 or as [`Found::path`] spells them.
    ///
    /// # Errors
    ///
    /// `NotFound::Nothing` if nothing has this path, and of the root, which is no entry; `NotFound::NoMemory`.
    pub fn find(&self, path: impl AsRef<str>) -> Result<Found<'_>, NotFound> {
        self.found(&text::as_spelled(path.as_ref()).ok_or(NotFound::Nothing)?)
    }

    /// The entry under the bytes of a path, of several the first. None leads through a name with a `/` in it.
    ///
    /// # Errors
    ///
    /// As of [`Survey::find`].
    pub fn find_bytes(&self, path: &[u8]) -> Result<Found<'_>, NotFound> {
        self.found(&text::escape(path))
    }

    fn found(&self, path: &str) -> Result<Found<'_>, NotFound> {
        self.entry(ffi::find_found(&self.subject, path.as_bytes())?).ok_or(NotFound::Nothing)
    }

    /// The entry under a path in escape form, of several the first; none for the root.
    pub(crate) fn find_escaped(&self, path: &str) -> Result<Option<Found<'_>>, NotFound> {
        Ok(self.entry(ffi::find_found(&self.subject, path.as_bytes())?))
    }

    /// What is at each block, for which the image is surveyed once more when it is asked for first.
    pub(crate) fn known_parts(&self) -> Result<Arc<[PartRecord]>, Refused> {
        let mut known = self.parts.lock().unwrap_or_else(PoisonError::into_inner);
        if let Some(parts) = &*known {
            return Ok(Arc::clone(parts));
        }
        let parts: Arc<[PartRecord]> = self.subject.parts()?.0.into();
        *known = Some(Arc::clone(&parts));
        Ok(parts)
    }

    pub(crate) fn entry(&self, number: usize) -> Option<Found<'_>> {
        (1..=self.tables.entries.len()).contains(&number).then_some(Found { survey: self, number })
    }
}

impl fmt::Debug for Survey<'_> {
    fn fmt(&self, f: &mut fmt::Formatter<'_>) -> fmt::Result {
        let (findings, entries) = (self.tables.findings.len(), self.tables.entries.len());
        f.debug_struct("Survey").field("findings", &findings).field("entries", &entries).finish()
    }
}

counted! {
    /// The entries of a survey.
    FoundEntries<'survey> { survey: &'survey Survey<'survey> } -> Found<'survey>: |number| Found { survey, number }
}

impl<'survey> IntoIterator for &'survey Survey<'_> {
    type Item = Found<'survey>;
    type IntoIter = FoundEntries<'survey>;

    fn into_iter(self) -> FoundEntries<'survey> {
        self.entries()
    }
}

/// Neighbouring blocks that have one cause and concern the same.
#[derive(Clone, Copy)]
pub struct Finding<'survey> {
    survey: &'survey Survey<'survey>,
    place: usize,
}

impl<'survey> Finding<'survey> {
    fn record(&self) -> &'survey ffi::FindingRecord {
        &self.survey.tables.findings[self.place]
    }

    /// The first block.
    pub fn first(&self) -> u32 {
        self.record().first
    }

    /// The last block.
    pub fn last(&self) -> u32 {
        self.record().last
    }

    /// What is wrong.
    pub fn cause(&self) -> Cause {
        self.record().cause.into()
    }

    /// The entry that is concerned, or the directory in which a header was skipped; none for the root and the bitmap.
    pub fn entry(&self) -> Option<Found<'survey>> {
        self.survey.entry(self.record().node)
    }

    /// Whether a header was skipped: in the directory `entry`, or in the root.
    pub fn is_within(&self) -> bool {
        self.record().is_within == 1
    }

    /// The entry that owns the blocks, if the cause is `Cause::Taken`.
    pub fn owner(&self) -> Option<Found<'survey>> {
        self.survey.entry(self.record().owner)
    }
}

impl fmt::Debug for Finding<'_> {
    fn fmt(&self, f: &mut fmt::Formatter<'_>) -> fmt::Result {
        let (blocks, entry) = (self.first()..=self.last(), self.entry().map(|found| found.path()));
        f.debug_struct("Finding")
            .field("blocks", &blocks)
            .field("cause", &self.cause())
            .field("entry", &entry)
            .finish_non_exhaustive()
    }
}

/// A directory, file or link that is found; a link counts as a file.
#[derive(Clone, Copy)]
pub struct Found<'survey> {
    survey: &'survey Survey<'survey>,
    number: usize,
}

impl<'survey> Found<'survey> {
    fn record(&self) -> &'survey ffi::FoundRecord {
        &self.survey.tables.entries[self.number - 1]
    }

    /// The number of the entry, from 1 as they come in `Survey::entries`.
    pub fn number(&self) -> usize {
        self.number
    }

    /// Whether no finding concerns the entry: a sound file has all its bytes.
    pub fn is_sound(&self) -> bool {
        self.record().is_sound == 1
    }

    /// Whether it is a file, or a link.
    pub fn is_file(&self) -> bool {
        self.record().is_file == 1
    }

    /// The name in the header, which may be one that no volume can have.
    pub fn name(&self) -> Text<'survey> {
        Text::of(&self.record().name, self.record().name_length)
    }

    /// The comment, which may be empty.
    pub fn comment(&self) -> Text<'survey> {
        Text::of(&self.record().comment, self.record().comment_length)
    }

    /// Bytes of a file, as its header says; 0 for a directory.
    pub fn size(&self) -> u32 {
        self.record().size
    }

    /// The protection word; a set bit of 0 to 3 forbids.
    pub fn protection(&self) -> u32 {
        self.record().protection
    }

    /// The date of the entry.
    pub fn date(&self) -> Date {
        self.record().date
    }

    /// The number of the header's block.
    pub fn header(&self) -> u32 {
        self.record().header
    }

    /// The directory that the entry is in, `None` for the root.
    pub fn parent(&self) -> Option<Found<'survey>> {
        self.survey.entry(self.record().parent)
    }

    /// The path as `adf-survey` spells it: names in the escape form with `/` between them. A name need not be one: a `/` or `:` in it is
    /// `\x2f` or `\x3a`, and one without bytes is `\x`.
    pub fn path(&self) -> String {
        text::spelled(&self.names())
    }

    /// The bytes of the path. A name may have any bytes, as `/`, or be `..`, which leads out of a folder.
    pub fn path_bytes(&self) -> Vec<u8> {
        self.names().join(&b'/')
    }

    /// The names of its directories, from the root on, and its own.
    pub(crate) fn names(&self) -> Vec<&'survey [u8]> {
        let mut names: Vec<_> = std::iter::successors(Some(*self), Found::parent).map(|found| found.name().as_bytes()).collect();
        names.reverse();
        names
    }

    /// What is left of this file, sound or damaged: that of this entry, also where another one has its path. For the first file of a
    /// survey the image is surveyed again, for no other.
    ///
    /// # Errors
    ///
    /// `not a file` of a directory and a link; `no memory`.
    pub fn remains(&self) -> Result<Remains, Failed> {
        remains_of_found(self)
    }

    pub(crate) fn survey(&self) -> &'survey Survey<'survey> {
        self.survey
    }

    pub(crate) fn subject(&self) -> &'survey Subject<'survey> {
        &self.survey.subject
    }
}

impl fmt::Debug for Found<'_> {
    fn fmt(&self, f: &mut fmt::Formatter<'_>) -> fmt::Result {
        f.debug_struct("Found").field("path", &self.path()).field("is_sound", &self.is_sound()).finish_non_exhaustive()
    }
}
