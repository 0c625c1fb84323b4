//! The library's sheet functions over slices (crates/start_values): each slice
//! passes as a pointer and a length.

extern "C" {
    fn wirkesu_write_sheet(
        file: *const u32,
        length: usize,
        out: *mut u32,
        out_length: usize,
        lines: *mut u32,
        lines_length: usize,
        room: *mut u32,
        room_length: usize,
    ) -> u64;
    fn wirkesu_check_sheet(
        file: *const u32,
        length: usize,
        sheet: *const u32,
        sheet_length: usize,
        room: *mut u32,
        room_length: usize,
    ) -> u32;
}

/// How many words the sheet has that is written to the front of `out`, or a
/// refusal in the high word.
pub fn write_sheet(file: &[u32], out: &mut [u32], lines: &mut [u32], room: &mut [u32]) -> u64 {
    // The library writes words of the three slices, and keeps nothing.
    unsafe {
        wirkesu_write_sheet(
            file.as_ptr(),
            file.len(),
            out.as_mut_ptr(),
            out.len(),
            lines.as_mut_ptr(),
            lines.len(),
            room.as_mut_ptr(),
            room.len(),
        )
    }
}

/// The refusal of a sheet, or 0.
pub fn check_sheet(file: &[u32], sheet: &[u32], room: &mut [u32]) -> u32 {
    // The library reads the file and the sheet, writes words of the room, and
    // keeps nothing.
    unsafe {
        wirkesu_check_sheet(
            file.as_ptr(),
            file.len(),
            sheet.as_ptr(),
            sheet.len(),
            room.as_mut_ptr(),
            room.len(),
        )
    }
}
