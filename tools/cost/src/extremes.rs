//! Files on which resolving takes long: a type that wants many others, many
//! function block types over the same nested entries, the longest sheets, and the
//! most uses.

use files::layout::*;
use files::records::Records;

/// A type without links or a declaration.
const PLAIN: [u32; 11] = [0, 0, 0, 0, 0, 0, 0, 0, 0, INLINE, 0];

fn begun() -> Records {
    let mut records = Records::default();
    records.push(SETTINGS, &[254]);
    records.push(SHAPES, &[1, 16, 0, 0, 0]);
    records
}

/// Type 0 is a structure whose elements name all the others, each an INT of
/// its own with a start value. Five variables of type 0.
pub fn wanting(others: u32) -> Vec<u32> {
    let mut records = begun();
    for name in 1..=others {
        records.push(SHAPE_FIELDS, &[name, 0, 1]);
        records.push(ELEMENTS, &[name, name - 1]);
        records.push(INITIALIZERS, &[3, 1 + name, 0, 0, 0, 0, 0, 0]);
    }
    records.push(SHAPES, &[11, 0, others, 0, 0]);
    records.push(TYPES, &[1, 0, 0, 0, 5, 0, 0, 0, others, INLINE, 0]);
    let constant = records.push(CONSTANTS, &[1, 0, 5, 0, 0]);
    let start = records.push(INITIALIZERS, &[3, 0, 0, constant + 1, 0, 0, 0, 0]);
    for _ in 0..others {
        records.push(TYPES, &[0, 0, 0, 0, 1, 0, start + 1, 0, 0, INLINE, 0]);
    }
    let bare = records.push(INITIALIZERS, &[3, 1, 0, 0, 0, 0, 0, 0]);
    for name in 1..=5 {
        records.push(VARIABLES, &[name, 4, 1, bare]);
    }
    records.words()
}

/// A chain of function block types, each with a variable of the next and one
/// over the same entries: so many arrays in structures in arrays of a block
/// whose default has so many fields. Five variables of the first.
pub fn chain(blocks: u32, pairs: u32, fields: u32) -> Vec<u32> {
    let mut records = begun();
    records.push(SHAPES, &[14, 9, 0, 0, 0]);
    records.push(SHAPES, &[12, 1, 0, 1, 0]);
    records.push(DIMENSIONS, &[1, 1]);
    let mut entry = records.push(ENTRIES, &[2, 1, 0, 0]);
    for _ in 0..pairs {
        let inner = records.push(ENTRIES, &[3, 0, entry, 1]);
        entry = records.push(ENTRIES, &[2, 1, inner, 1]);
    }
    let bare = records.push(INITIALIZERS, &[3, 1, 0, 0, 0, 0, 0, 0]);
    let nested = records.push(INITIALIZERS, &[7, 2, 0, 0, entry, 1, 0, 0]);
    for name in 1..=fields {
        records.push(VARIABLES, &[name, 4, 1, bare]);
    }
    records.push(BLOCK_FIELDS, &[1, 3, 0]);
    records.push(TYPES, &PLAIN);
    records.push(TYPES, &[1, 0, 0, 0, 9, 0, 0, 0, fields, 0, 1]);
    records.push(TYPES, &[2, 0, 2, 0, 0, 0, 0, 0, 0, INLINE, 0]);
    for number in 0..blocks {
        let shape = records.push(SHAPES, &[14, 100 + number, 0, 0, 0]);
        let next = records.count(TYPES) + 2;
        let first = records.push(VARIABLES, &[1, 4, 2, nested]);
        if number + 1 < blocks {
            let start = records.push(INITIALIZERS, &[3, next, 0, 0, 0, 0, 0, 0]);
            records.push(VARIABLES, &[2, 4, next, start]);
        }
        let count = records.count(VARIABLES) - first;
        records.push(TYPES, &[shape, 0, 0, 0, 9, 0, 0, first, count, INLINE, 0]);
    }
    let start = records.push(INITIALIZERS, &[3, 4, 0, 0, 0, 0, 0, 0]);
    for name in 1..=5 {
        records.push(VARIABLES, &[name, 4, 4, start]);
    }
    records.words()
}

/// Variables of an array of 2,047 INT, the largest tree.
pub fn largest(variables: u32) -> Vec<u32> {
    let mut records = begun();
    records.push(SHAPES, &[12, 0, 0, 1, 0]);
    records.push(DIMENSIONS, &[1, 2047]);
    records.push(TYPES, &PLAIN);
    records.push(TYPES, &[1, 0, 1, 0, 0, 0, 0, 0, 0, INLINE, 0]);
    let bare = records.push(INITIALIZERS, &[3, 2, 0, 0, 0, 0, 0, 0]);
    for name in 1..=variables {
        records.push(VARIABLES, &[name, 4, 2, bare]);
    }
    records.words()
}

/// Function block types that share a run of 4,096 variables and 4,096 block
/// fields, each an alias of the next, so that the last has to be ranked first.
pub fn uses(types: u32) -> Vec<u32> {
    let mut records = begun();
    records.push(TYPES, &PLAIN);
    let bare = records.push(INITIALIZERS, &[3, 1, 0, 0, 0, 0, 0, 0]);
    for name in 1..=4096 {
        records.push(VARIABLES, &[name, 4, 1, bare]);
        records.push(BLOCK_FIELDS, &[name, 1, 0]);
    }
    for number in 1..=types {
        let shape = records.push(SHAPES, &[14, number, 0, 0, 0]);
        let base = if number < types { number + 2 } else { 0 };
        records.push(TYPES, &[shape, base, 0, 0, 9, 0, 0, 0, 4096, 0, 4096]);
    }
    records.words()
}
