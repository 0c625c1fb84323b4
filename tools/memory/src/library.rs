//! The library's functions of start memory over slices (crates/start_values):
//! each slice passes as a pointer and a length.

extern "C" {
    fn wirkesu_line_words(file: *const u32, length: usize) -> u64;
    fn wirkesu_room_words(file: *const u32, length: usize) -> u64;
    fn wirkesu_write_memory(
        file: *const u32,
        length: usize,
        variable: u32,
        bytes: *mut u8,
        bytes_length: usize,
        lines: *mut u32,
        lines_length: usize,
        room: *mut u32,
        room_length: usize,
    ) -> u64;
    fn wirkesu_read_memory(
        file: *const u32,
        length: usize,
        variable: u32,
        bytes: *const u8,
        bytes_length: usize,
        nodes: *mut u32,
        nodes_length: usize,
        characters: *mut u32,
        characters_length: usize,
        lines: *mut u32,
        lines_length: usize,
        room: *mut u32,
        room_length: usize,
    ) -> u64;
}

/// How many words `lines` and `room` must have.
pub fn work_words(file: &[u32]) -> [usize; 2] {
    // The library reads the slice's words and keeps nothing.
    unsafe {
        [
            wirkesu_line_words(file.as_ptr(), file.len()) as usize,
            wirkesu_room_words(file.as_ptr(), file.len()) as usize,
        ]
    }
}

/// How many bytes the variable's tree has that is written to the front of
/// `bytes`, 4294967295 for none, or a refusal in the high word.
pub fn write_memory(file: &[u32], variable: u32, bytes: &mut [u8], lines: &mut [u32], room: &mut [u32]) -> u64 {
    // The library writes bytes and words of the three slices, and keeps nothing.
    unsafe {
        wirkesu_write_memory(
            file.as_ptr(),
            file.len(),
            variable,
            bytes.as_mut_ptr(),
            bytes.len(),
            lines.as_mut_ptr(),
            lines.len(),
            room.as_mut_ptr(),
            room.len(),
        )
    }
}

/// How many nodes are read to the front of `nodes`, 0 for none, or a refusal in
/// the high word.
pub fn read_memory(
    file: &[u32],
    variable: u32,
    bytes: &[u8],
    nodes: &mut [u32],
    characters: &mut [u32],
    lines: &mut [u32],
    room: &mut [u32],
) -> u64 {
    // The library reads the bytes, writes words of the four slices, and keeps
    // nothing.
    unsafe {
        wirkesu_read_memory(
            file.as_ptr(),
            file.len(),
            variable,
            bytes.as_ptr(),
            bytes.len(),
            nodes.as_mut_ptr(),
            nodes.len(),
            characters.as_mut_ptr(),
            characters.len(),
            lines.as_mut_ptr(),
            lines.len(),
            room.as_mut_ptr(),
            room.len(),
        )
    }
}
