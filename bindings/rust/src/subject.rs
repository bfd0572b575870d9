use crate::ffi::{self, PartRecord, SubjectTold};
use crate::Refused;
use std::ops::Deref;
use std::sync::Arc;

/// The image that `adf-survey` surveys: the one that is given, or one in its place with another length or other first bytes.
#[derive(Clone)]
pub(crate) enum Subject<'image> {
    Given(&'image [u8]),
    /// The other one, and how many of its blocks the given image holds.
    Changed(Arc<Vec<u8>>, usize),
}

impl<'image> Subject<'image> {
    /// What is surveyed of an image, as if it had so many blocks unless they are 0, and what is told of it.
    pub(crate) fn of(image: &'image [u8], blocks: u32) -> Result<(Subject<'image>, SubjectTold), Refused> {
        let (subject, told) = ffi::subject(image, blocks)?;
        let is_changed = told.length != image.len() || told.is_begun == 1 || told.is_retyped == 1;
        Ok((if is_changed { Subject::Changed(Arc::new(subject), told.held as usize) } else { Subject::Given(image) }, told))
    }

    /// What its survey has at each block, without what it has at blocks that the given image does not hold; and the entries that have
    /// these.
    pub(crate) fn parts(&self) -> Result<(Vec<PartRecord>, Vec<usize>), Refused> {
        let mut parts = ffi::parts(self)?;
        let missing = parts.iter_mut().skip(self.held());
        let cut = missing.map(|part| std::mem::take(part).node).filter(|node| *node != 0).collect();
        Ok((parts, cut))
    }

    /// Whether the given image holds all of its blocks.
    pub(crate) fn is_whole(&self) -> bool {
        self.held() >= self.len() / 512
    }

    fn held(&self) -> usize {
        match self {
            Subject::Given(image) => image.len() / 512,
            Subject::Changed(_, held) => *held,
        }
    }
}

impl Deref for Subject<'_> {
    type Target = [u8];

    fn deref(&self) -> &[u8] {
        match self {
            Subject::Given(image) => image,
            Subject::Changed(image, _) => image,
        }
    }
}
