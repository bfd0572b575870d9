use crate::text::{in_capitals, unescape};
use crate::{escape, ffi, Failed, Found, NotFound, Refused, Survey};
use std::ops::Range;

/// The last word of a file's header; a link has another one.
const FILE_TYPE: [u8; 4] = [0xff, 0xff, 0xff, 0xfd];

/// What is left of a file: its bytes, with zeros for those that are lost, and the ranges of these.
#[derive(Clone, Debug, PartialEq, Eq)]
pub struct Remains {
    /// The bytes, with zeros for those that are lost.
    pub bytes: Vec<u8>,
    /// The ranges of the bytes that are lost.
    pub lost: Vec<Range<usize>>,
}

/// What is left of a file of an image, sound or damaged, under a path in the escape form, as `adf-survey cat --damaged` writes it.
/// Each call surveys the image: for several files, and for paths in Latin-1, [`Survey::find`] and [`Found::remains`] are faster.
///
/// # Errors
///
/// `not unique` if several entries have the path, up to the case of letters: [`Found::remains`] tells them apart. `not a file`,
/// `no such path`, `bad path`, `no memory`.
///
/// # Examples
///
/// ```
/// let mut image = adf::run(&["build"], b"volume ofs 1760\nfile 0:0:0 00000000 readme\ndata 48690a\n").into_output()?;
/// image[512 * 880 + 440] ^= 1; // a byte of the root
/// assert_eq!(adf::remains_of(&image, "readme")?.bytes, b"Hi\n");
/// # Ok::<(), Box<dyn std::error::Error>>(())
/// ```
pub fn remains_of(image: &[u8], path: &str) -> Result<Remains, Failed> {
    let survey = Survey::of(image).map_err(failed)?;
    let wanted: Option<Vec<_>> = path.split('/').map(|name| Some(in_capitals(&unescape(name)?))).collect();
    let names = |found: Found| found.names().into_iter().map(in_capitals).collect::<Vec<_>>();
    if survey.entries().map(names).filter(|names| wanted.as_ref() == Some(names)).count() > 1 {
        return Err(Failed::with(1, "not unique"));
    }
    match survey.find_escaped(path) {
        Ok(Some(found)) => found.remains(),
        Ok(None) => Err(Failed::with(1, "not a file")),
        Err(why) => Err(not_found(path, why)),
    }
}

/// [`remains_of`], with its arguments in another order than all other calls over an image.
///
/// # Errors
///
/// As of [`remains_of`].
#[deprecated(note = "remains_of has the image first, as the other calls")]
pub fn remains(path: &str, image: &[u8]) -> Result<Remains, Failed> {
    remains_of(image, path)
}

/// The answer where a path leads to nothing.
fn not_found(path: &str, why: NotFound) -> Failed {
    match why {
        NotFound::Nothing => {
            let shown = unescape(path).map_or_else(|| path.to_owned(), |path| escape(&path));
            Failed::with(1, &format!("no such path: {shown}"))
        }
        NotFound::NoPath => Failed::with(2, "bad path"),
        why => Failed::with(3, &why.to_string()),
    }
}

fn failed(refused: Refused) -> Failed {
    Failed::with(3, &refused.cause.to_string())
}

/// What is left of an entry, by its number.
pub(crate) fn remains_of_found(found: &Found) -> Result<Remains, Failed> {
    let past = (found.header() as usize + 1) * 512;
    if !found.is_file() || found.subject().get(past - 4..past) != Some(&FILE_TYPE[..]) {
        return Err(Failed::with(1, "not a file"));
    }
    let image = found.subject();
    let rows = found.survey().known_parts().map_err(failed)?;
    let blocks = ffi::found_blocks(image, &rows, found.number(), found.header()).map_err(failed)?;
    let (mut bytes, mut lost, mut at) = (vec![0; image.len().min(found.size() as usize)], Vec::new(), 0);
    while at < bytes.len() {
        let (read, gap) = ffi::found_read(image, found.header(), &blocks, at, &mut bytes[at..]);
        if gap > 0 {
            lost.push(at + read..at + read + gap);
        }
        if read + gap == 0 {
            break;
        }
        at += read + gap;
    }
    Ok(Remains { bytes, lost })
}
