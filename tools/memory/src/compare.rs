//! One call of the library, held against what is right: the answer, and every
//! lent byte and word.

use crate::differs;
use crate::lent::{Lent, LENT};
use crate::library::{read_memory, write_memory};

/// What stands in a byte slice before a call.
const LENT_BYTE: u8 = 0xA5;

/// The slice for the answer is shorter than it.
const SHORT: u64 = 10 << 32;

/// What is right where the slices are long enough: what is written, or the
/// answer's code.
pub type Right<T> = Result<T, u64>;

/// Nodes and characters.
pub type Read = (Vec<u32>, Vec<u32>);

pub fn refused(number: u32) -> u64 {
    u64::from(number) << 32
}

/// A file and a variable, and how many work words are lent.
#[derive(Clone, Copy)]
pub struct Asked<'a> {
    pub words: &'a [u32],
    pub variable: u32,
    pub work: [usize; 2],
}

/// Whether a slice holds this in front, and is as it was behind it.
fn holds<T: PartialEq>(slice: &[T], front: &[T], before: T) -> bool {
    slice.starts_with(front) && slice[front.len()..].iter().all(|each| *each == before)
}

/// Writes with a slice of this length.
pub fn writes(asked: Asked, lent: &mut Lent, length: usize, right: &Right<Vec<u8>>) -> u64 {
    let (code, front): (u64, &[u8]) = match right {
        Ok(bytes) if bytes.len() <= length => (bytes.len() as u64, bytes),
        Ok(_) => (SHORT, &[]),
        Err(code) => (*code, &[]),
    };
    let mut bytes = vec![LENT_BYTE; length];
    lent.of(0, asked.work[0], asked.work[1]);
    let said = write_memory(asked.words, asked.variable, &mut bytes, &mut lent.lines, &mut lent.room);
    if said != code || !holds(&bytes, front, LENT_BYTE) || !lent.is_cleared() {
        let what = format!("variable {}, written: {said:#x} and not {code:#x}", asked.variable);
        differs(&what, asked.words, &format!("{bytes:?} and not {front:?}"));
    }
    code
}

/// Reads bytes with slices of these lengths.
pub fn reads(asked: Asked, lent: &mut Lent, bytes: &[u8], lengths: [usize; 2], right: &Right<Read>) -> u64 {
    let none = (Vec::new(), Vec::new());
    let (code, front) = match right {
        Ok(read) if read.0.len() <= lengths[0] && read.1.len() <= lengths[1] => (read.0.len() as u64 / 6, read),
        Ok(_) => (SHORT, &none),
        Err(code) => (*code, &none),
    };
    let [mut nodes, mut characters] = lengths.map(|length| vec![LENT; length]);
    lent.of(0, asked.work[0], asked.work[1]);
    let (lines, room) = (&mut lent.lines, &mut lent.room);
    let said = read_memory(asked.words, asked.variable, bytes, &mut nodes, &mut characters, lines, room);
    let is_right = holds(&nodes, &front.0, LENT) && holds(&characters, &front.1, LENT);
    if said != code || !is_right || !lent.is_cleared() {
        let what = format!("variable {}, read: {said:#x} and not {code:#x}", asked.variable);
        let read = format!("{bytes:?}: {nodes:?} {characters:?} and not {front:?}");
        differs(&what, asked.words, &read);
    }
    code
}
