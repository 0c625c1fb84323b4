//! The library's functions over slices (crates/start_values): each slice
//! passes as a pointer and a length.

extern "C" {
    fn wirkesu_line_words(file: *const u32, length: usize) -> u64;
    fn wirkesu_room_words(file: *const u32, length: usize) -> u64;
}

/// A question about a record of a file, with the slice for its answer and the
/// two work slices.
type Question = unsafe extern "C" fn(
    file: *const u32,
    length: usize,
    number: u32,
    out: *mut u32,
    out_length: usize,
    lines: *mut u32,
    lines_length: usize,
    room: *mut u32,
    room_length: usize,
) -> u64;

extern "C" {
    fn wirkesu_type_tree(
        file: *const u32,
        length: usize,
        number: u32,
        out: *mut u32,
        out_length: usize,
        lines: *mut u32,
        lines_length: usize,
        room: *mut u32,
        room_length: usize,
    ) -> u64;
    fn wirkesu_variable_tree(
        file: *const u32,
        length: usize,
        number: u32,
        out: *mut u32,
        out_length: usize,
        lines: *mut u32,
        lines_length: usize,
        room: *mut u32,
        room_length: usize,
    ) -> u64;
    fn wirkesu_completed(
        file: *const u32,
        length: usize,
        number: u32,
        out: *mut u32,
        out_length: usize,
        lines: *mut u32,
        lines_length: usize,
        room: *mut u32,
        room_length: usize,
    ) -> u64;
}

/// What is asked; not every program here asks for all.
#[allow(dead_code)]
#[derive(Clone, Copy, Debug, PartialEq)]
pub enum What {
    Type,
    Variable,
    Completed,
}

/// How many words `lines` and `room` must have, or the file's refusal in the
/// high word of both.
pub fn work_words(file: &[u32]) -> [u64; 2] {
    // The library reads the slice's words and keeps nothing.
    unsafe {
        [
            wirkesu_line_words(file.as_ptr(), file.len()),
            wirkesu_room_words(file.as_ptr(), file.len()),
        ]
    }
}

pub fn ask(
    what: What,
    file: &[u32],
    number: u32,
    out: &mut [u32],
    lines: &mut [u32],
    room: &mut [u32],
) -> u64 {
    let question: Question = match what {
        What::Type => wirkesu_type_tree,
        What::Variable => wirkesu_variable_tree,
        What::Completed => wirkesu_completed,
    };
    // The library writes words of the three slices, and keeps nothing.
    unsafe {
        question(
            file.as_ptr(),
            file.len(),
            number,
            out.as_mut_ptr(),
            out.len(),
            lines.as_mut_ptr(),
            lines.len(),
            room.as_mut_ptr(),
            room.len(),
        )
    }
}
