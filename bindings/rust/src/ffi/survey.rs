//! Surveys: what is wrong with an image, and what is found in it.

use super::{accepted, bytes_of, looked_up, with_room, Date, SMALL_ROOM};
use crate::cause::{NotFound, Refused};

/// `struct adf_subject`.
#[repr(C)]
#[derive(Clone, Copy, Default)]
pub(crate) struct SubjectTold {
    pub length: usize,
    pub held: u32,
    pub is_begun: u8,
    pub is_retyped: u8,
}

/// `struct adf_finding`.
#[repr(C)]
#[derive(Clone, Copy)]
pub(crate) struct FindingRecord {
    pub first: u32,
    pub last: u32,
    pub node: usize,
    pub owner: usize,
    pub cause: u8,
    pub is_within: u8,
}

/// `struct adf_found`.
#[repr(C)]
#[derive(Clone, Copy)]
pub(crate) struct FoundRecord {
    pub parent: usize,
    pub header: u32,
    pub size: u32,
    pub protection: u32,
    pub date: Date,
    pub is_file: u8,
    pub is_sound: u8,
    pub name_length: u8,
    pub name: [u8; 79],
    pub comment_length: u8,
    pub comment: [u8; 79],
}

/// `struct adf_surveyed`.
#[repr(C)]
#[derive(Clone, Copy, Default)]
pub(crate) struct Surveyed {
    pub kind: u32,
    pub blocks: u32,
    pub findings: usize,
    pub entries: usize,
    pub root: Date,
    pub altered: Date,
    pub created: Date,
    pub label_length: u8,
    pub label: [u8; 30],
}

/// `struct adf_link`.
#[repr(C)]
#[derive(Clone, Copy)]
pub(crate) struct LinkRecord {
    pub node: usize,
    pub target: usize,
    pub path: usize,
    pub path_length: usize,
    pub header: u32,
    pub kind: u8,
}

extern "C" {
    fn adf_survey_subject(
        image: *const u8,
        length: usize,
        blocks: u32,
        room: *mut u8,
        room_length: usize,
        subject: *mut SubjectTold,
    ) -> u8;
    fn adf_survey_index(
        image: *const u8,
        length: usize,
        findings: *mut FindingRecord,
        findings_room: usize,
        entries: *mut FoundRecord,
        entries_room: usize,
        surveyed: *mut Surveyed,
    ) -> u8;
    fn adf_survey_links(image: *const u8, length: usize, links: *mut LinkRecord, room: usize, count: *mut usize) -> u8;
    fn adf_survey_find(image: *const u8, length: usize, path: *const u8, path_length: usize, node: *mut usize) -> u8;
}

/// The image that `adf-survey` surveys of an image, as if it had so many blocks unless they are 0, and what is told of it.
pub(crate) fn subject(image: &[u8], blocks: u32) -> Result<(Vec<u8>, SubjectTold), Refused> {
    let mut room = if blocks == 0 { image.len() } else { bytes_of(blocks) };
    loop {
        let mut subject = with_room(room)?;
        subject.resize(room, 0);
        let mut told = SubjectTold::default();
        // "A pointer to bytes has as many bytes as its length or room says".
        let answer = unsafe { adf_survey_subject(image.as_ptr(), image.len(), blocks, subject.as_mut_ptr(), room, &mut told) };
        if answer != SMALL_ROOM || told.length <= room {
            accepted(answer).map_err(|cause| Refused { cause, block: 0 })?;
            subject.truncate(told.length);
            return Ok((subject, told));
        }
        room = told.length;
    }
}

/// The tables of a survey, as `adf_survey_index` makes them.
pub(crate) struct SurveyTables {
    pub surveyed: Surveyed,
    pub findings: Vec<FindingRecord>,
    pub entries: Vec<FoundRecord>,
}

/// Surveys an image and fills tables with room for so many rows, and answers them with the whole numbers of rows.
fn survey_into(image: &[u8], findings_room: usize, entries_room: usize) -> Result<SurveyTables, Refused> {
    let (mut findings, mut entries) = (with_room::<FindingRecord>(findings_room)?, with_room::<FoundRecord>(entries_room)?);
    let (findings_room, entries_room) = (findings.capacity(), entries.capacity());
    let mut surveyed = Surveyed::default();
    // "A pointer to bytes has as many bytes as its length or room says", and "buffers and structs need not be initialised".
    let answer = unsafe {
        adf_survey_index(
            image.as_ptr(),
            image.len(),
            findings.as_mut_ptr(),
            findings_room,
            entries.as_mut_ptr(),
            entries_room,
            &mut surveyed,
        )
    };
    accepted(answer).map_err(|cause| Refused { cause, block: 0 })?;
    // "fills two tables, each as far as there is room"; "surveyed->findings and surveyed->entries are the whole numbers": so many
    // were written, and no more than there is room for.
    unsafe {
        findings.set_len(surveyed.findings.min(findings_room));
        entries.set_len(surveyed.entries.min(entries_room));
    }
    Ok(SurveyTables { surveyed, findings, entries })
}

/// Surveys an image and makes its tables.
pub(crate) fn survey(image: &[u8]) -> Result<SurveyTables, Refused> {
    const FIRST_ROOM: usize = 1024;
    let first = survey_into(image, FIRST_ROOM, FIRST_ROOM)?;
    let Surveyed { findings, entries, .. } = first.surveyed;
    if first.findings.len() == findings && first.entries.len() == entries {
        return Ok(first);
    }
    survey_into(image, findings, entries)
}

/// Surveys an image and fills a table with room for so many of its right links, and answers it with the number of all.
fn links_into(image: &[u8], room: usize) -> Result<(Vec<LinkRecord>, usize), Refused> {
    let (mut links, mut count) = (with_room::<LinkRecord>(room)?, 0);
    let room = links.capacity();
    // "Buffers and structs need not be initialised".
    let answer = unsafe { adf_survey_links(image.as_ptr(), image.len(), links.as_mut_ptr(), room, &mut count) };
    accepted(answer).map_err(|cause| Refused { cause, block: 0 })?;
    // "fills a table of its right links, in the order of their entries, as far as there is room": so many were written.
    unsafe { links.set_len(count.min(room)) };
    Ok((links, count))
}

/// The right links that the survey of an image finds.
pub(crate) fn links(image: &[u8]) -> Result<Vec<LinkRecord>, Refused> {
    const FIRST_ROOM: usize = 64;
    let (links, count) = links_into(image, FIRST_ROOM)?;
    if links.len() == count {
        return Ok(links);
    }
    Ok(links_into(image, count)?.0)
}

/// The number of the entry of a survey under a path in escape form, of several the first; 0 for the root.
pub(crate) fn find_found(image: &[u8], path: &[u8]) -> Result<usize, NotFound> {
    let mut node = 0;
    // "A pointer to bytes has as many bytes as its length or room says".
    let answer = unsafe { adf_survey_find(image.as_ptr(), image.len(), path.as_ptr(), path.len(), &mut node) };
    looked_up(answer, node)
}
