//! How many words the two work slices must have, as docs/WORK.md says it:
//! written from that page, for comparison with the library.

use files::layout::{File, ENTRIES, SHAPES, SHAPE_FIELDS, TYPES};

/// 2,048 nodes of six words.
const TREE: u64 = 2048 * 6;

/// A line for each type: rank, state, count and a tree.
pub fn lines(file: &File) -> u64 {
    file.count(TYPES) as u64 * (3 + TREE)
}

/// One more than the deepest of some.
fn above(depths: &[u64], numbers: impl Iterator<Item = usize>) -> u64 {
    1 + numbers.map(|number| depths[number]).max().unwrap_or(0)
}

fn run(first: u32, count: u32) -> std::ops::Range<usize> {
    first as usize..first as usize + count as usize
}

/// How deep entries nest: an entry without parts is one level, any other one
/// more than the deepest that it points to.
fn entries(file: &File) -> u64 {
    let mut depths = Vec::new();
    for number in 0..file.count(ENTRIES) {
        let entry = file.record(ENTRIES, number);
        let depth = match entry[0] {
            2 | 3 => above(&depths, run(entry[2], entry[3])),
            6 if entry[3] > 0 => above(&depths, std::iter::once(entry[3] as usize - 1)),
            _ => 1,
        };
        depths.push(depth);
    }
    depths.into_iter().max().unwrap_or(0)
}

/// How deep shapes nest: structures over their fields, arrays over their
/// elements.
fn shapes(file: &File) -> u64 {
    let mut depths = Vec::new();
    for number in 0..file.count(SHAPES) {
        let shape = file.record(SHAPES, number);
        let depth = match shape[0] {
            11 => above(
                &depths,
                run(shape[1], shape[2]).map(|field| file.record(SHAPE_FIELDS, field)[1] as usize),
            ),
            12 => above(&depths, std::iter::once(shape[1] as usize)),
            _ => 1,
        };
        depths.push(depth);
    }
    depths.into_iter().max().unwrap_or(0)
}

/// Two trees for each level of entries and of shapes, and for one more.
pub fn room(file: &File) -> u64 {
    (1 + entries(file) + shapes(file)) * 2 * TREE
}
