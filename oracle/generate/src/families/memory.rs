//! What a variable's bytes depend on (document 02, Q-1): characters at the end
//! of their width, reals around the ends of binary32, numbers of every width,
//! bases of subranges, members listed twice, nulls at any place, trees that are
//! not of their place's shape.

use super::aggregates::listed;
use crate::draft::{Draft, Form, Integer, Known};
use crate::types::{plain, simple, with_run, DECLARATION, ELEMENT, NAMED};
use crate::values::{bare, with_value};
use files::layout::*;

/// Bits of an f64 that binary32 rounds to its ends, to a subnormal, to zero or
/// to a neighbour at a tie; besides those that no binary32 is near, and values
/// that are no number.
const ROUNDED: [u64; 22] = [
    0x47EF_FFFF_E000_0000, // the greatest binary32
    0x47EF_FFFF_EFFF_FFFF,
    0x47EF_FFFF_F000_0000, // a tie: infinity
    0x47F0_0000_0000_0000,
    0x7FEF_FFFF_FFFF_FFFF,
    0x7FF0_0000_0000_0000,
    0x36A0_0000_0000_0000, // the least subnormal
    0x3690_0000_0000_0000, // a tie: zero
    0x3690_0000_0000_0001,
    0x36A8_0000_0000_0000, // a tie of subnormals
    0x380F_FFFF_C000_0000, // the greatest subnormal
    0x380F_FFFF_E000_0000, // a tie: the least normal
    0x3810_0000_0000_0000,
    0x3FF0_0000_1000_0000, // a tie above 1
    0x3FF0_0000_1000_0001,
    0x3FF0_0000_3000_0000,
    0x3FB9_9999_9999_999A, // 0.1
    0x0000_0000_0000_0000,
    0x0000_0000_0000_0001,
    0x7FF0_0000_0000_0001,
    0x7FF8_0000_0000_0000,
    0x7FFF_FFFF_FFFF_FFFF,
];

/// Characters at the end of a width, narrow and wide.
const CHARACTER_ENDS: [[u32; 6]; 2] = [
    [0, 0xFE, 0xFF, 0xFF, 0x100, 0xFFFF],
    [0, 0x100, 0xFFFE, 0xFFFF, 0x1_0000, u32::MAX],
];

/// A variable of kind 4, which none of the odd choices leaves without a type.
fn variable(draft: &mut Draft, ty: u32, initializer: u32) {
    let name = draft.field_name();
    draft.records.push(VARIABLES, &[name, 4, Draft::link(ty), initializer]);
}

/// A variable of a type of the shape with the constant as its value.
fn constant_at(draft: &mut Draft, shape: u32, constant: u32) {
    let ty = draft.elementary(shape);
    let record = with_value(3, Draft::link(ty), Draft::link(constant));
    let initializer = draft.initializer(record);
    variable(draft, ty, initializer);
}

/// A variable of the type, without a value of its own.
fn bare_at(draft: &mut Draft, ty: u32) {
    let initializer = draft.initializer(bare(3, Draft::link(ty)));
    variable(draft, ty, initializer);
}

/// Strings with characters at the end of their width, and past it.
pub fn characters(draft: &mut Draft) {
    let width = draft.random.below(2);
    let most = draft.random.between(1, 4);
    let shape = draft.shape(Form::Text(most + 1, width));
    for _ in 0..draft.random.between(2, 4) {
        let length = draft.random.below(most + 2);
        let first = draft.records.count(CHARACTERS);
        for _ in 0..length {
            let character = match draft.random.percent(30) {
                true => draft.random.pick(&CHARACTER_ENDS[width as usize]),
                false => draft.random.between(0x41, 0x5A),
            };
            draft.records.push(CHARACTERS, &[character]);
        }
        let constant = draft.constant([8, 0, first, length, width]);
        constant_at(draft, shape, constant);
    }
}

/// Reals of every width around the ends and ties of binary32.
pub fn rounded_reals(draft: &mut Draft) {
    for _ in 0..draft.random.between(3, 6) {
        let bits = draft.random.pick(&[8, 16, 32, 32, 32, 64]);
        let shape = draft.shape(Form::Sized(3, bits));
        let size = match draft.random.percent(30) {
            // Exponents from below the subnormals of binary32 to above its end.
            true => u64::from(draft.random.between(0x360, 0x482)) << 52 | draft.random.word() >> 12,
            false => draft.random.pick(&ROUNDED),
        };
        let sign = u64::from(draft.random.below(2)) << 63;
        let constant = draft.real(size | sign);
        constant_at(draft, shape, constant);
    }
}

/// Numbers of one kind in every width, and all of them in a structure.
pub fn widths(draft: &mut Draft) {
    let kind = draft.random.pick(&[1, 1, 2, 4, 5, 6, 7, 8]);
    let mut shapes = Vec::new();
    for bits in [8, 16, 32, 64] {
        let shape = draft.shape(Form::Sized(kind, bits));
        let (least, greatest) = draft.range(shape).expect("a number");
        let value = draft.random.pick(&[least, least + 1, -1, 0, 0x80, 0x7F, greatest - 1, greatest]);
        let value = value.clamp(least, greatest);
        let constant = match kind {
            5..=8 => draft.time([4, 6, 5, 7][kind as usize - 5], value),
            _ if value >= 0 && draft.random.percent(25) => draft.bit_string(value as u64),
            _ => draft.integer(value),
        };
        constant_at(draft, shape, constant);
        shapes.push(shape);
    }
    let shape = draft.structure_shape(&shapes);
    let ty = draft.declared_structure(shape);
    draft.variable_of(ty);
}

/// A shape that a subrange may have as its base.
fn base_shape(draft: &mut Draft) -> u32 {
    match draft.random.below(10) {
        0 | 1 => draft.shape(Form::Bool),
        2 => draft.number_shape(),
        3 => draft.text_shape(),
        4 => draft.enumeration_shape(),
        5 | 6 => {
            let bits = draft.bits();
            draft.shape(Form::Sized(4, bits))
        }
        _ => draft.integer_shape(),
    }
}

/// Subranges over subranges, bit strings, BOOL and what is no integer, with
/// constants at and past the bounds of each.
pub fn bases_of_subranges(draft: &mut Draft) {
    let mut shape = base_shape(draft);
    let mut ends: Vec<Integer> = Vec::new();
    for _ in 0..draft.random.between(1, 3) {
        let (least, greatest) = draft.range(shape).unwrap_or((-3, 3));
        let moved = [-9, -1, 0, 0, 1, 9].map(|more| (least + more, greatest - more));
        let (least, greatest) = draft.random.pick(&moved);
        let most = u64::MAX as Integer;
        let [least, greatest] = [least, greatest].map(|end| end.clamp(-most, most));
        ends.extend([least, least - 1, greatest, greatest + 1, (least + greatest) / 2]);
        shape = draft.shape(Form::Subrange {
            base: shape,
            least,
            greatest,
        });
    }
    for _ in 0..draft.random.between(2, 4) {
        let value = draft.random.pick(&ends).clamp(-(u64::MAX as Integer), u64::MAX as Integer);
        let constant = match value >= 0 && draft.random.percent(25) {
            true => draft.bit_string(value as u64),
            false => draft.integer(value),
        };
        constant_at(draft, shape, constant);
    }
    let ty = draft.elementary(shape);
    bare_at(draft, ty);
}

/// Enumerations that list a member more than once.
pub fn members_twice(draft: &mut Draft) {
    let count = draft.random.between(3, 6);
    let names = draft.random.between(1, 3);
    let members: Vec<u32> = (0..count).map(|_| 20 + draft.random.below(names)).collect();
    let default = draft.random.below(count);
    let shape = draft.shape(Form::Enumeration {
        members: members.clone(),
        default,
        underlying: 0,
    });
    let ty = draft.declared_plainly(shape, 7);
    bare_at(draft, ty);
    for name in 20..20 + names {
        let qualifier = draft.random.below(3);
        let entry = draft.single(ENTRIES, &[1, 0, name, qualifier]);
        let initializer = draft.initializer(with_value(6, Draft::link(ty), Draft::link(entry)));
        variable(draft, ty, initializer);
    }
    let array = draft.array_shape(shape);
    let array = draft.type_of(array);
    draft.variable_of(array);
}

/// Nulls at places that are no references: by an initializer of kind 10 and by
/// a type that is declared as a reference, alone, in a structure, in an array.
pub fn nulls(draft: &mut Draft) {
    let shape = draft.any_shape(1);
    let null = Draft::link(draft.expression([4, 0]));
    let initializer = draft.initializer(with_value(10, 0, null));
    let ty = draft.type_of(shape);
    variable(draft, ty, initializer);
    let leaf = draft.leaf_shape();
    let mut record = plain(leaf);
    record[DECLARATION] = 6;
    let reference = draft.push_type(record, Known::default());
    bare_at(draft, reference);
    let array = draft.array_shape(leaf);
    let mut record = plain(array);
    record[ELEMENT] = Draft::link(reference);
    let array = draft.push_type(record, Known::default());
    draft.variable_of(array);
    let structure = draft.shape(Form::Structure(vec![[1, leaf, 0], [2, leaf, 0]]));
    let plain_start = draft.variable_initializer(reference);
    let elements = vec![vec![1, initializer], vec![2, plain_start]];
    let run = draft.run(ELEMENTS, &elements);
    let ty = draft.push_type(with_run(structure, 5, run), Known::default());
    bare_at(draft, ty);
}

/// An array type whose tree is that of an array of another length, or of the
/// same one, and a structure with it.
pub fn other_lengths(draft: &mut Draft) {
    let leaf = draft.number_shape();
    let lengths = [draft.random.between(1, 3), draft.random.between(1, 3)];
    let [shape, other] = lengths.map(|length| draft.array_of(leaf, vec![(1, length as i32)]));
    let base = draft.declared_array(other);
    let kind = draft.random.pick(&[3, 9]);
    let initializer = draft.initializer(bare(kind, Draft::link(base)));
    let known = Known {
        nodes: 4,
        ..Known::default()
    };
    let ty = draft.push_type(simple(shape, initializer), known);
    bare_at(draft, ty);
    let structure = draft.shape(Form::Structure(vec![[1, shape, 0]]));
    let start = draft.initializer(bare(3, Draft::link(ty)));
    let run = draft.run(ELEMENTS, &[vec![1, start]]);
    let ty = draft.push_type(with_run(structure, 5, run), Known::default());
    bare_at(draft, ty);
}

/// A type that starts with the value of a type of another shape, which is not
/// converted again.
pub fn other_shapes(draft: &mut Draft) {
    let base = draft.any_shape(1);
    let base = draft.declared(base);
    for _ in 0..2 {
        let shape = draft.any_shape(1);
        let initializer = draft.initializer(bare(3, Draft::link(base)));
        let mut record = simple(shape, initializer);
        // Declared as a subrange or an array its named type gives the value.
        if draft.random.percent(30) {
            record[DECLARATION] = draft.random.pick(&[2, 4]);
            record[6] = 0;
            record[NAMED] = Draft::link(base);
        }
        let known = draft.known_as(base);
        let ty = draft.push_type(record, known);
        bare_at(draft, ty);
        let structure = draft.structure_shape(&[shape]);
        let Form::Structure(fields) = draft.form(structure).clone() else {
            return;
        };
        let start = draft.initializer(bare(3, Draft::link(ty)));
        let run = draft.run(ELEMENTS, &[vec![fields[0][0], start]]);
        let ty = draft.push_type(with_run(structure, 5, run), Known::default());
        bare_at(draft, ty);
    }
}

/// A string type that starts with the value of one of another width or length.
pub fn other_strings(draft: &mut Draft) {
    let width = draft.random.below(2);
    let most = draft.random.between(1, 3);
    let shape = draft.shape(Form::Text(most + 1, width));
    let base = draft.declared_string(shape);
    for _ in 0..draft.random.between(1, 3) {
        let length = draft.random.pick(&[0, most, most + 1, most + 2, 65_536, 65_537]);
        let other = draft.random.pick(&[width, width, 1 - width]);
        let shape = draft.shape(Form::Text(length, other));
        let initializer = draft.initializer(bare(3, Draft::link(base)));
        let ty = draft.push_type(simple(shape, initializer), Known::default());
        bare_at(draft, ty);
    }
}

/// Structures of leaves of every kind, in arrays and with arrays, all filled.
pub fn images(draft: &mut Draft) {
    let leaves: Vec<u32> = (0..draft.random.between(2, 5)).map(|_| draft.leaf_shape()).collect();
    let row = draft.array_shape(leaves[0]);
    let structure = draft.structure_shape(&[&leaves[..], &[row]].concat());
    let ty = draft.declared_structure(structure);
    draft.variable_of(ty);
    bare_at(draft, ty);
    let array = draft.array_shape(structure);
    if draft.shape_nodes(array) < 200 {
        let array = draft.declared_array(array);
        draft.variable_of(array);
    }
}

/// A structure without fields, which has no bytes, alone and beside others.
pub fn empty_structures(draft: &mut Draft) {
    let empty = draft.shape(Form::Structure(Vec::new()));
    let ty = draft.type_of(empty);
    listed(draft, ty, 8, &[]);
    let leaf = draft.leaf_shape();
    let shape = draft.structure_shape(&[empty, leaf, empty]);
    let ty = draft.type_of(shape);
    draft.variable_of(ty);
    let array = draft.array_shape(empty);
    let ty = draft.type_of(array);
    bare_at(draft, ty);
}
