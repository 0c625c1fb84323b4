//! The proved functions (crates/start_values, include/wirkesu.h) over slices.

extern "C" {
    fn wirkesu_accept(file: *const u32, length: usize) -> u32;
    fn wirkesu_line_words(file: *const u32, length: usize) -> u64;
    fn wirkesu_room_words(file: *const u32, length: usize) -> u64;
    fn wirkesu_write_sheet(
        file: *const u32,
        length: usize,
        out: *mut u32,
        out_length: usize,
        lines: *mut u32,
        lines_length: usize,
        room: *mut u32,
        room_length: usize,
    ) -> u64;
    fn wirkesu_variable_tree(
        file: *const u32,
        length: usize,
        number: u32,
        out: *mut u32,
        out_length: usize,
        lines: *mut u32,
        lines_length: usize,
        room: *mut u32,
        room_length: usize,
    ) -> u64;
    fn wirkesu_write_memory(
        file: *const u32,
        length: usize,
        variable: u32,
        bytes: *mut u8,
        bytes_length: usize,
        lines: *mut u32,
        lines_length: usize,
        room: *mut u32,
        room_length: usize,
    ) -> u64;
    fn wirkesu_read_memory(
        file: *const u32,
        length: usize,
        variable: u32,
        bytes: *const u8,
        bytes_length: usize,
        nodes: *mut u32,
        nodes_length: usize,
        characters: *mut u32,
        characters_length: usize,
        lines: *mut u32,
        lines_length: usize,
        room: *mut u32,
        room_length: usize,
    ) -> u64;
    fn wirkesu_check_sheet(
        file: *const u32,
        length: usize,
        sheet: *const u32,
        sheet_length: usize,
        room: *mut u32,
        room_length: usize,
    ) -> u32;
}

/// The number of a refusal.
#[derive(Clone, Copy, Debug, PartialEq, Eq)]
pub struct Refused(pub u32);

/// Words of the first answer slice that is tried; a sheet that is longer is
/// written again into one of twice the words.
const FIRST_WORDS: usize = 1 << 16;

/// No sheet of an accepted file has more words: 1,024 types and twice 4,096
/// variables, each with a line of at most 12,291 words, and three counts.
const MOST_WORDS: usize = (1024 + 2 * 4096) * 12_291 + 3;

/// No tree has more words.
const TREE_WORDS: usize = 2048 * 6;

/// Bytes of the first slice that start memory is written to.
const FIRST_BYTES: usize = 1 << 16;

/// No tree has more bytes: each leaf is at most a wide string of 65,535.
const MOST_BYTES: usize = 2048 * (4 + 2 * 65_535);

/// The writer's answer for a variable that starts with nothing.
const NO_BYTES: u64 = 0xFFFF_FFFF;

/// Whether a file is accepted.
pub fn accept(file: &[u32]) -> Result<(), Refused> {
    // The library reads the file's words, and keeps nothing.
    match unsafe { wirkesu_accept(file.as_ptr(), file.len()) } {
        0 => Ok(()),
        number => Err(Refused(number)),
    }
}

/// How many words `lines` and `room` must have for an accepted file.
fn work_words(file: &[u32]) -> [usize; 2] {
    // As in `accept`.
    unsafe {
        [
            wirkesu_line_words(file.as_ptr(), file.len()) as usize,
            wirkesu_room_words(file.as_ptr(), file.len()) as usize,
        ]
    }
}

/// The sheet of a file.
pub fn write_sheet(file: &[u32]) -> Result<Vec<u32>, Refused> {
    accept(file)?;
    let [lines, room] = work_words(file);
    let mut room = vec![0; room];
    let mut length = FIRST_WORDS;
    loop {
        let mut out = vec![0; length];
        let mut lines = vec![0; lines.min(length)];
        // The library writes words of the three slices, and keeps nothing.
        let code = unsafe {
            wirkesu_write_sheet(
                file.as_ptr(),
                file.len(),
                out.as_mut_ptr(),
                out.len(),
                lines.as_mut_ptr(),
                lines.len(),
                room.as_mut_ptr(),
                room.len(),
            )
        };
        match (code >> 32) as u32 {
            0 => {
                out.truncate(code as usize);
                return Ok(out);
            }
            // The work words are enough, so the answer slice is too short.
            10 if length < MOST_WORDS => length = (2 * length).min(MOST_WORDS),
            number => return Err(Refused(number)),
        }
    }
}

/// Whether a sheet is the file's.
pub fn check_sheet(file: &[u32], sheet: &[u32]) -> Result<(), Refused> {
    accept(file)?;
    let mut room = vec![0; work_words(file)[1]];
    // The library reads the file and the sheet, writes words of the room, and
    // keeps nothing.
    let number = unsafe {
        wirkesu_check_sheet(
            file.as_ptr(),
            file.len(),
            sheet.as_ptr(),
            sheet.len(),
            room.as_mut_ptr(),
            room.len(),
        )
    };
    match number {
        0 => Ok(()),
        number => Err(Refused(number)),
    }
}

/// The words of a variable's tree; none where it starts with nothing.
pub fn variable_tree(file: &[u32], variable: u32) -> Result<Option<Vec<u32>>, Refused> {
    accept(file)?;
    let [mut lines, mut room] = work_words(file).map(|count| vec![0; count]);
    let mut out = vec![0; TREE_WORDS];
    // The library writes words of the three slices, and keeps nothing.
    let code = unsafe {
        wirkesu_variable_tree(
            file.as_ptr(),
            file.len(),
            variable,
            out.as_mut_ptr(),
            out.len(),
            lines.as_mut_ptr(),
            lines.len(),
            room.as_mut_ptr(),
            room.len(),
        )
    };
    match ((code >> 32) as u32, code as usize) {
        (0, 0) => Ok(None),
        (0, nodes) => {
            out.truncate(6 * nodes);
            Ok(Some(out))
        }
        (number, _) => Err(Refused(number)),
    }
}

/// A variable's tree as bytes; none where it starts with nothing.
pub fn write_memory(file: &[u32], variable: u32) -> Result<Option<Vec<u8>>, Refused> {
    accept(file)?;
    let [mut lines, mut room] = work_words(file).map(|count| vec![0; count]);
    let mut length = FIRST_BYTES;
    loop {
        let mut bytes = vec![0; length];
        // The library writes bytes and words of the three slices, and keeps
        // nothing.
        let code = unsafe {
            wirkesu_write_memory(
                file.as_ptr(),
                file.len(),
                variable,
                bytes.as_mut_ptr(),
                bytes.len(),
                lines.as_mut_ptr(),
                lines.len(),
                room.as_mut_ptr(),
                room.len(),
            )
        };
        match (code >> 32) as u32 {
            0 if code == NO_BYTES => return Ok(None),
            0 => {
                bytes.truncate(code as usize);
                return Ok(Some(bytes));
            }
            // The work words are enough, so the byte slice is too short.
            10 if length < MOST_BYTES => length = (2 * length).min(MOST_BYTES),
            number => return Err(Refused(number)),
        }
    }
}

/// The words of the nodes, and the characters, that bytes are read as by a
/// variable's tree; none where it starts with nothing.
pub fn read_memory(file: &[u32], variable: u32, bytes: &[u8]) -> Result<Option<(Vec<u32>, Vec<u32>)>, Refused> {
    accept(file)?;
    let [mut lines, mut room] = work_words(file).map(|count| vec![0; count]);
    let mut nodes = vec![0; TREE_WORDS];
    // A character has a byte of its own.
    let mut characters = vec![0; bytes.len()];
    // The library reads the bytes, writes words of the four slices, and keeps
    // nothing.
    let code = unsafe {
        wirkesu_read_memory(
            file.as_ptr(),
            file.len(),
            variable,
            bytes.as_ptr(),
            bytes.len(),
            nodes.as_mut_ptr(),
            nodes.len(),
            characters.as_mut_ptr(),
            characters.len(),
            lines.as_mut_ptr(),
            lines.len(),
            room.as_mut_ptr(),
            room.len(),
        )
    };
    match ((code >> 32) as u32, code as usize) {
        (0, 0) => Ok(None),
        (0, count) => {
            nodes.truncate(6 * count);
            Ok(Some((nodes, characters)))
        }
        (number, _) => Err(Refused(number)),
    }
}
