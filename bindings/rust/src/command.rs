use crate::ffi::{self, Moved, Program};
use std::error::Error;
use std::fmt;

const FIRST_OUTPUT: usize = 1 << 20;
const FIRST_ERRORS: usize = 1024;
const MOST_OUTPUT: usize = 1 << 32;

/// What a command wrote, and its status.
#[derive(Clone, PartialEq, Eq)]
pub struct Answer {
    /// 0: success. 1: the input is refused or has findings. 2: the arguments are refused. 3: an allocation failed, or the output has
    /// more than 4 GiB: then it is cut there, and errors say `write fault`.
    pub status: u8,
    /// What the command wrote to standard output.
    pub output: Vec<u8>,
    /// What it wrote to standard error.
    pub errors: Vec<u8>,
}

impl Answer {
    /// The output at status 0.
    ///
    /// # Errors
    ///
    /// The answer itself at any other status.
    pub fn into_output(self) -> Result<Vec<u8>, Failed> {
        match self.status {
            0 => Ok(self.output),
            _ => Err(Failed { answer: self }),
        }
    }
}

impl fmt::Debug for Answer {
    fn fmt(&self, f: &mut fmt::Formatter<'_>) -> fmt::Result {
        let (bytes, errors) = (self.output.len(), String::from_utf8_lossy(&self.errors));
        let mut shown = f.debug_struct("Answer");
        shown.field("status", &self.status).field("output", &format_args!("{bytes} bytes")).field("errors", &errors).finish()
    }
}

/// The answer of a command that did not do what was asked. Shown as the first line that it wrote, such as `no such path`.
#[derive(Clone, Debug, PartialEq, Eq)]
pub struct Failed {
    /// The answer.
    pub answer: Answer,
}

impl Failed {
    /// An answer with this status and error.
    pub(crate) fn with(status: u8, error: &str) -> Failed {
        Failed { answer: Answer { status, output: Vec::new(), errors: format!("{error}\n").into_bytes() } }
    }
}

impl fmt::Display for Failed {
    fn fmt(&self, f: &mut fmt::Formatter<'_>) -> fmt::Result {
        let Answer { status, output, errors } = &self.answer;
        let text = String::from_utf8_lossy(if errors.is_empty() { output } else { errors });
        match text.lines().next() {
            Some(line) => f.write_str(line),
            None => write!(f, "status {status}"),
        }
    }
}

impl Error for Failed {}

/// Runs the command `adf` with these arguments, without the program's name, over an input: an image, or a manifest for `build`.
/// `run(&["build"], manifest)` makes an image. An argument with a zero byte is refused, at status 2.
///
/// # Examples
///
/// ```
/// let image = adf::run(&["build"], b"volume ffs 4\n").into_output()?;
/// assert_eq!(adf::run(&["check"], &image).output, b"ok ffs blocks 4 used 2 free 0 dirs 0 files 0\n");
/// # Ok::<(), adf::Failed>(())
/// ```
pub fn run(words: &[&str], input: &[u8]) -> Answer {
    run_program(Program::Adf, "adf", words, input)
}

/// Runs the command `adf-survey` with these arguments over an image: `survey(&["--blocks", "1760", "--list"], image)`. `Survey::of`,
/// `remains_of` and `rescue` give what it finds as structs. No file is opened: an argument that names one is refused, at status 2.
///
/// # Examples
///
/// ```
/// let image = adf::run(&["build"], b"volume ffs 4\n").into_output()?;
/// assert_eq!((adf::survey(&[], &image).status, adf::survey(&[], &image).output), (0, vec![]));
/// # Ok::<(), adf::Failed>(())
/// ```
pub fn survey(words: &[&str], image: &[u8]) -> Answer {
    run_program(Program::Survey, "adf-survey", words, image)
}

fn run_program(program: Program, name: &str, words: &[&str], input: &[u8]) -> Answer {
    if words.iter().any(|word| word.contains('\0')) {
        return Failed::with(2, "an argument has a zero byte").answer;
    }
    let mut line = format!("{name}\0").into_bytes();
    for word in words {
        line.extend_from_slice(word.as_bytes());
        line.push(0);
    }
    let first = input.len().clamp(FIRST_OUTPUT, MOST_OUTPUT);
    run_with_more(first, MOST_OUTPUT, |output, errors| ffi::run(program, &line, input, output, errors))
}

/// Calls with rooms that are doubled while they are too small, up to the largest.
fn run_with_more(first: usize, most: usize, mut call: impl FnMut(&mut [u8], &mut [u8]) -> (u8, Moved)) -> Answer {
    let (mut output, mut output_room) = (Vec::new(), first);
    let (mut errors, mut errors_room) = (Vec::new(), FIRST_ERRORS.min(most));
    loop {
        if output.try_reserve_exact(output_room).is_err() || errors.try_reserve_exact(errors_room).is_err() {
            return Answer { status: 3, output: Vec::new(), errors: b"no memory\n".to_vec() };
        }
        output.resize(output_room, 0);
        errors.resize(errors_room, 0);
        let (status, moved) = call(&mut output, &mut errors);
        let more_output = moved.output_full && output_room < most;
        let more_errors = moved.errors_full && errors_room < most;
        if !more_output && !more_errors {
            output.truncate(moved.output);
            errors.truncate(moved.errors);
            return Answer { status, output, errors };
        }
        output.clear();
        errors.clear();
        if more_output {
            output_room = (2 * output_room).min(most);
        }
        if more_errors {
            errors_room = (2 * errors_room).min(most);
        }
    }
}

#[cfg(test)]
mod tests {
    use super::*;

    /// A command of so many bytes of output, and how often it was called.
    fn answer_of(length: usize) -> (Answer, usize) {
        let mut calls = 0;
        let answer = run_with_more(4, 64, |output, errors| {
            calls += 1;
            let (written, is_full) = (length.min(output.len()), length > output.len());
            output[..written].fill(b'A');
            let said: &[u8] = if is_full { b"write fault\n" } else { b"" };
            errors[..said.len()].copy_from_slice(said);
            let status = if is_full { 3 } else { 0 };
            (status, Moved { output: written, errors: said.len(), output_full: is_full, ..Moved::default() })
        });
        (answer, calls)
    }

    #[test]
    fn room_grows_until_the_output_fits() {
        for (length, calls) in [(0, 1), (4, 1), (5, 2), (33, 5), (64, 5)] {
            let whole = Answer { status: 0, output: vec![b'A'; length], errors: Vec::new() };
            assert_eq!(answer_of(length), (whole, calls), "{length}");
        }
    }

    #[test]
    fn output_is_cut_at_the_largest_room() {
        let cut = Answer { status: 3, output: vec![b'A'; 64], errors: b"write fault\n".to_vec() };
        assert_eq!(answer_of(65), (cut, 5));
    }
}
