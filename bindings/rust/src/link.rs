use crate::ffi::{self, LinkRecord};
use crate::numbered::numbered;
use crate::{Found, Refused, Survey, Text};
use std::fmt;

numbered! {
    /// What a link is. The numbers are those of `enum adf_link_kind` in include/adf.h.
    LinkKind(u8):
    /// Another name of a file: a hard link.
    File = 1,
    /// Another name of a directory: a hard link.
    Directory = 2,
    /// A path: a soft link.
    Soft = 3,
}

/// A right link that is found: it leads to something.
#[derive(Clone, Copy)]
pub struct Link<'survey> {
    survey: &'survey Survey<'survey>,
    record: LinkRecord,
}

impl<'survey> Link<'survey> {
    /// What it is.
    pub fn kind(&self) -> LinkKind {
        self.record.kind.into()
    }

    /// Its entry, which counts as a file.
    pub fn entry(&self) -> Option<Found<'survey>> {
        self.survey.entry(self.record.node)
    }

    /// The file or directory that a hard link leads to, which is no link.
    pub fn target(&self) -> Option<Found<'survey>> {
        self.survey.entry(self.record.target)
    }

    /// The path of a soft link, as an Amiga reads it. It may lead to another volume, or to nothing.
    pub fn path(&self) -> Option<Text<'survey>> {
        let (from, length) = (self.record.path, self.record.path_length);
        let bytes = self.survey.subject().get(from..from.checked_add(length)?)?;
        (self.kind() == LinkKind::Soft).then_some(Text::of_bytes(bytes))
    }
}

impl fmt::Debug for Link<'_> {
    fn fmt(&self, f: &mut fmt::Formatter<'_>) -> fmt::Result {
        let (entry, target) = (self.entry().map(|found| found.path()), self.target().map(|found| found.path()));
        f.debug_struct("Link")
            .field("kind", &self.kind())
            .field("entry", &entry)
            .field("target", &target)
            .field("path", &self.path())
            .finish_non_exhaustive()
    }
}

impl<'image> Survey<'image> {
    /// The right links that are found, in the order of their entries. For them the image is surveyed again.
    ///
    /// # Errors
    ///
    /// `Cause::NoMemory` alone.
    pub fn links(&self) -> Result<Vec<Link<'_>>, Refused> {
        Ok(ffi::links(self.subject())?.into_iter().map(|record| Link { survey: self, record }).collect())
    }
}
