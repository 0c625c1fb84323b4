//! Every kind and width of shape, with constants at and around the ends of
//! each range and the ties of each rounding.

use super::Pairs;
use crate::constants::REALS;
use crate::draft::Integer;
use files::layout::*;
use files::records::Records;
use std::collections::BTreeSet;

const BITS: [u32; 4] = [8, 16, 32, 64];

/// The number of the shape LINT in `number_shapes`.
const LINT: u32 = 4;

/// Bounds of subranges, in order and out of order.
const SUBRANGES: [(Integer, Integer); 7] = [
    (-5, 9),
    (0, 0),
    (9, -5),
    (1, 0),
    (-128, 127),
    (1 << 63, u64::MAX as Integer),
    (-(u64::MAX as Integer), u64::MAX as Integer),
];

/// 1 + length, or 0 for a string without one.
const LENGTHS: [u32; 6] = [0, 1, 2, 4, 65_536, 65_537];

/// How many characters the strings of a file have.
const SHORT: [u32; 6] = [0, 1, 2, 3, 4, 5];
const MEDIUM: [u32; 4] = [0, 253, 254, 255];
const LONG: [u32; 5] = [0, 3, 65_534, 65_535, 65_536];

impl Pairs {
    /// The files of directed pairs: numbers of every kind, and strings under
    /// each default length that the Rust is compiled for.
    pub fn directed() -> Vec<Self> {
        vec![
            numbers(),
            strings(1, &SHORT),
            strings(254, &MEDIUM),
            strings(65_535, &LONG),
        ]
    }
}

fn numbers() -> Pairs {
    let mut records = Records::default();
    records.push(SETTINGS, &[254]);
    number_shapes(&mut records);
    string_shapes(&mut records);
    subrange_shapes(&mut records);
    shapes_of_no_constant(&mut records);
    range_ends(&mut records);
    rounding_ties(&mut records);
    for bits in REALS {
        push_sized(&mut records, 3, 0, bits);
    }
    push_sized(&mut records, 0, 0, 0);
    push_sized(&mut records, 0, 0, 1);
    string_constants(&mut records, &SHORT);
    Pairs { records }
}

fn strings(default_length: u32, counts: &[u32]) -> Pairs {
    let mut records = Records::default();
    records.push(SETTINGS, &[default_length]);
    string_shapes(&mut records);
    records.push(SHAPES, &[1, 16, 0, 0, 0]);
    string_constants(&mut records, counts);
    push_sized(&mut records, 1, 0, 7);
    Pairs { records }
}

// Shapes.

/// Bool, and kinds 1 to 8 at each width.
fn number_shapes(records: &mut Records) {
    records.push(SHAPES, &[0; 5]);
    for kind in 1..=8 {
        for bits in BITS {
            records.push(SHAPES, &[kind, bits, 0, 0, 0]);
        }
    }
}

fn string_shapes(records: &mut Records) {
    for length in LENGTHS {
        for width in [0, 1] {
            records.push(SHAPES, &[9, length, width, 0, 0]);
        }
    }
}

/// Subranges of LINT, whose own range plays no part.
fn subrange_shapes(records: &mut Records) {
    for (least, greatest) in SUBRANGES {
        let least = push_integer(records, least);
        let greatest = push_integer(records, greatest);
        records.push(SHAPES, &[13, LINT, least, greatest, 0]);
    }
}

/// An enumeration, a structure, an array, a block, an interface and a
/// reference.
fn shapes_of_no_constant(records: &mut Records) {
    let member = records.push(MEMBERS, &[20]);
    let field = records.push(SHAPE_FIELDS, &[1, 0, 0]);
    let dimension = records.push(DIMENSIONS, &[1, 1]);
    records.push(SHAPES, &[10, member, 1, 0, 0]);
    records.push(SHAPES, &[11, field, 1, 0, 0]);
    records.push(SHAPES, &[12, 0, dimension, 1, 0]);
    records.push(SHAPES, &[14, 40, 0, 0, 0]);
    records.push(SHAPES, &[15, 41, 0, 0, 0]);
    records.push(SHAPES, &[16, 0, 0, 0, 0]);
}

// Constants.

/// A constant of `kind` with `size`, of each width that the kind has.
fn push_sized(records: &mut Records, kind: u32, sign: u32, size: u64) {
    let widths = if kind >= 4 { 2 } else { 1 };
    for width in 0..widths {
        let record = [kind, sign, size as u32, (size >> 32) as u32, width];
        records.push(CONSTANTS, &record);
    }
}

fn push_integer(records: &mut Records, value: Integer) -> u32 {
    let size = value.unsigned_abs() as u64;
    push_sized(records, 1, u32::from(value < 0), size);
    records.count(CONSTANTS) - 1
}

/// Integers, bit strings, durations and calendar kinds of these sizes, with
/// either sign where the kind has one.
fn range_ends(records: &mut Records) {
    for size in ends() {
        for kind in [1, 2, 4, 5, 6, 7] {
            push_sized(records, kind, 0, size);
            if matches!(kind, 1 | 4) && size != 0 {
                push_sized(records, kind, 1, size);
            }
        }
    }
}

/// Sizes at and around the ends of the ranges of each width, signed and
/// unsigned, and of the small subranges.
fn ends() -> BTreeSet<u64> {
    let mut sizes = BTreeSet::from([0, 1, 2, 4, 5, 6, 8, 9, 10]);
    for power in BITS.into_iter().flat_map(|bits| [bits - 1, bits]) {
        let end = (1u128 << power) - 1;
        let around = [end - 1, end, end + 1, end + 2];
        sizes.extend(around.iter().filter_map(|size| u64::try_from(*size).ok()));
    }
    sizes
}

/// Integers of either sign on and next to the ties of REAL (24 bits are
/// kept) and LREAL (53). With 40 bits dropped, a REAL next to its tie would
/// come to it through LREAL.
fn rounding_ties(records: &mut Records) {
    let mut sizes = ties(24, &[1, 2, 9, 29, 30, 40]);
    sizes.extend(ties(53, &[1, 2, 10, 11]));
    for size in sizes {
        push_sized(records, 1, 0, size);
        push_sized(records, 1, 1, size);
    }
}

/// One below, at and above the tie of an even number of `bits` bits, an odd
/// one, and one of ones, which carries into the next power of two.
fn ties(bits: u32, dropped: &[u32]) -> BTreeSet<u64> {
    let mut sizes = BTreeSet::new();
    for dropped in dropped {
        for kept in [1 << (bits - 1), (1 << (bits - 1)) + 1, (1u64 << bits) - 1] {
            let tie = (kept << dropped) + (1 << (dropped - 1));
            sizes.extend([tie - 1, tie, tie + 1]);
        }
    }
    sizes
}

/// Strings of so many characters, their runs at the end of the section.
fn string_constants(records: &mut Records, counts: &[u32]) {
    let most = counts.iter().max().copied().unwrap_or(0);
    for character in 0..most {
        records.push(CHARACTERS, &[0x41 + character % 26]);
    }
    for count in counts {
        for width in [0, 1] {
            records.push(CONSTANTS, &[8, 0, most - count, *count, width]);
        }
    }
}
