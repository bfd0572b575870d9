//! Programs over memory.

/// `struct adf_moved`.
#[repr(C)]
#[derive(Clone, Copy, Default)]
pub(crate) struct Moved {
    pub input: usize,
    pub output: usize,
    pub errors: usize,
    pub output_full: bool,
    pub errors_full: bool,
}

extern "C" {
    fn adf_run(
        words: *const u8,
        words_length: usize,
        input: *const u8,
        input_length: usize,
        output: *mut u8,
        output_room: usize,
        errors: *mut u8,
        errors_room: usize,
        moved: *mut Moved,
    ) -> u8;
    fn adf_survey_run(
        words: *const u8,
        words_length: usize,
        input: *const u8,
        input_length: usize,
        output: *mut u8,
        output_room: usize,
        errors: *mut u8,
        errors_room: usize,
        moved: *mut Moved,
    ) -> u8;
}

/// A program of the library.
#[derive(Clone, Copy)]
pub(crate) enum Program {
    Adf,
    Survey,
}

/// Runs a program over memory: its status, and how many bytes moved.
pub(crate) fn run(program: Program, words: &[u8], input: &[u8], output: &mut [u8], errors: &mut [u8]) -> (u8, Moved) {
    let mut moved = Moved::default();
    let call = match program {
        Program::Adf => adf_run,
        Program::Survey => adf_survey_run,
    };
    // "What it writes (not const) overlaps nothing else that is passed"; "buffers and structs need not be initialised, except
    // for the bools of a struct, which are true or false".
    let status = unsafe {
        call(
            words.as_ptr(),
            words.len(),
            input.as_ptr(),
            input.len(),
            output.as_mut_ptr(),
            output.len(),
            errors.as_mut_ptr(),
            errors.len(),
            &mut moved,
        )
    };
    (status, moved)
}
