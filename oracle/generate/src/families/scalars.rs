//! Single values: constants at the ends of ranges, rounding, times,
//! strings, enumerations, subranges and references.

use crate::draft::{Draft, Form, Integer, Known};
use crate::types::{plain, simple, with_run, DECLARATION, ELEMENT, NAMED, REFERENCED, START};
use crate::values::{bare, with_value};
use files::layout::*;

/// Variables with a constant at and around each end of an integer shape.
pub fn range_ends(draft: &mut Draft) {
    let shape = match draft.random.percent(70) {
        true => draft.integer_shape(),
        false => draft.subrange_shape(),
    };
    let ty = draft.type_of(shape);
    let (least, greatest) = draft.range(shape).expect("an integer shape");
    let values = [
        least - 1,
        least,
        least + 1,
        greatest - 1,
        greatest,
        greatest + 1,
    ];
    let first = draft.random.below(4) as usize;
    for value in &values[first..first + 3] {
        let value = (*value).clamp(-(u64::MAX as Integer), u64::MAX as Integer);
        let constant = match value >= 0 && draft.random.percent(25) {
            true => draft.bit_string(value as u64),
            false => draft.integer(value),
        };
        draft.constant_variable(ty, constant);
    }
    draft.bare_variable(ty, 3);
}

/// Integers on and next to the ties of REAL and LREAL.
pub fn rounding_ties(draft: &mut Draft) {
    for _ in 0..draft.random.between(2, 5) {
        let bits = draft.bits();
        let shape = draft.shape(Form::Sized(3, bits));
        let ty = draft.type_of(shape);
        let kept = draft.random.pick(&[24, 53]);
        let value = draft.near_tie(kept);
        let constant = draft.integer(value);
        draft.constant_variable(ty, constant);
    }
}

/// Reals of every sort, those that are no number included.
pub fn reals(draft: &mut Draft) {
    let bits = draft.bits();
    let shape = draft.shape(Form::Sized(3, bits));
    let ty = draft.type_of(shape);
    for _ in 0..draft.random.between(2, 4) {
        let bits = draft.real_bits();
        let constant = draft.real(bits);
        draft.constant_variable(ty, constant);
    }
    let odd = draft.any_constant();
    draft.constant_variable(ty, odd);
}

/// Durations and calendar kinds at and around the ends of each width.
pub fn times(draft: &mut Draft) {
    let kind = draft.random.between(5, 8);
    let bits = draft.bits();
    let shape = draft.shape(Form::Sized(kind, bits));
    let ty = draft.type_of(shape);
    let (least, greatest) = draft.range(shape).expect("a time shape");
    for _ in 0..draft.random.between(2, 4) {
        let value = draft
            .random
            .pick(&[least - 1, least, greatest - 1, greatest, greatest + 1]);
        let constant_kind = match draft.random.percent(12) {
            true => draft.random.between(4, 7),
            false => [4, 6, 5, 7][kind as usize - 5],
        };
        let constant = draft.time(constant_kind, value);
        draft.constant_variable(ty, constant);
    }
    draft.bare_variable(ty, 3);
}

/// What a BOOL takes and what it doesn't.
pub fn booleans(draft: &mut Draft) {
    let shape = draft.shape(Form::Bool);
    let ty = draft.type_of(shape);
    for _ in 0..draft.random.between(2, 4) {
        let value: Integer = draft.random.pick(&[0, 1, 1, 2, -1, 1 << 32, (1 << 32) + 1]);
        let constant = match draft.random.below(4) {
            0 => draft.boolean(value > 0),
            1 => draft.bit_string(value.unsigned_abs() as u64),
            _ => draft.integer(value),
        };
        draft.constant_variable(ty, constant);
    }
}

/// Literals below, at and above the length of a short string.
pub fn strings(draft: &mut Draft) {
    let most = draft.random.below(5);
    let width = draft.random.below(2);
    let shape = draft.shape(Form::Text(most + 1, width));
    let ty = draft.type_of(shape);
    for length in [most.saturating_sub(1), most, most + 1] {
        let constant = draft.string(length);
        match draft.random.below(3) {
            0 => {
                draft.constant_variable(ty, constant);
            }
            1 => {
                let mut record = plain(shape);
                record[DECLARATION] = 3;
                record[START] = Draft::link(constant);
                draft.push_type(record, Known::default());
            }
            _ => {
                let record = [
                    4,
                    Draft::link(ty),
                    0,
                    Draft::link(constant),
                    0,
                    0,
                    most + 1,
                    width,
                ];
                let initializer = draft.initializer(record);
                draft.variable(ty, initializer);
            }
        }
    }
}

/// Literals around the default string length at places without a length.
pub fn default_length(draft: &mut Draft) {
    let width = draft.random.below(2);
    let shape = draft.shape(Form::Text(0, width));
    let ty = draft.type_of(shape);
    let most = match draft.default_length() {
        length @ (1 | 254) => length,
        _ => 3,
    };
    // The longest is made first, so that the others share its characters.
    for length in [most + 2, most + 1, most, most - 1] {
        let constant = draft.string(length);
        let record = match draft.random.percent(50) {
            true => with_value(3, Draft::link(ty), Draft::link(constant)),
            false => [4, Draft::link(ty), 0, Draft::link(constant), 0, 0, 0, width],
        };
        let initializer = draft.initializer(record);
        draft.variable(ty, initializer);
    }
}

/// Strings whose length is at the end of 16 bits.
pub fn long_strings(draft: &mut Draft) {
    for _ in 0..draft.random.between(1, 3) {
        // 1 + length.
        let length =
            draft
                .random
                .pick(&[65_535, 65_536, 65_536, 65_537, 65_538, u32::MAX, 1 << 31]);
        let width = draft.random.below(2);
        let shape = draft.shape(Form::Text(length, width));
        let ty = draft.type_of(shape);
        draft.variable_of(ty);
        let count = draft.random.below(3);
        let constant = draft.string(count);
        draft.constant_variable(ty, constant);
    }
}

/// A string variable has the length of its initializer, not of its type; a
/// string element has the length of its field, not of its initializer.
pub fn string_places(draft: &mut Draft) {
    let shape = match draft.random.percent(70) {
        true => draft.text_shape(),
        false => draft.leaf_shape(),
    };
    let ty = draft.type_of(shape);
    for _ in 0..draft.random.between(1, 3) {
        let record = string_initializer(draft, ty);
        let initializer = draft.initializer(record);
        draft.variable(ty, initializer);
    }
    let record = string_initializer(draft, ty);
    let initializer = draft.initializer(record);
    let structure = draft.structure_shape(&[shape]);
    let Form::Structure(fields) = draft.form(structure).clone() else {
        return;
    };
    let run = draft.run(ELEMENTS, &[vec![fields[0][0], initializer]]);
    let record = with_run(structure, 5, run);
    draft.push_type(record, Known::default());
    // A string without type is no less a string.
    let record = string_initializer(draft, ty);
    let initializer = draft.initializer(record);
    let name = draft.field_name();
    draft.records.push(VARIABLES, &[name, 4, 0, initializer]);
}

/// A string initializer with a length of its own.
fn string_initializer(draft: &mut Draft, ty: u32) -> [u32; 8] {
    let length = draft
        .random
        .pick(&[0, 1, 2, 3, 3, 4, 65_536, 65_537, u32::MAX]);
    let value = match draft.random.percent(70) {
        true => {
            let count = draft.random.below(4);
            Draft::link(draft.string(count))
        }
        false => 0,
    };
    let width = draft.random.below(2);
    [4, Draft::link(ty), 0, value, 0, 0, length, width]
}

/// Enumerated values that are members and that aren't.
pub fn enumerations(draft: &mut Draft) {
    let shape = draft.enumeration_shape();
    let ty = match draft.random.below(3) {
        0 => draft.declared_plainly(shape, 7),
        _ => draft.type_of(shape),
    };
    for kind in [5, 6] {
        let value = draft.enumerated_link(shape, 80);
        let initializer = draft.initializer(with_value(kind, Draft::link(ty), value));
        draft.variable(ty, initializer);
    }
    let entry = draft.enumerated(shape, 0);
    let array = draft.array_shape(shape);
    let array_type = draft.type_of(array);
    let record = draft.with_entries(9, Draft::link(array_type), &[entry]);
    let initializer = draft.initializer(record);
    draft.variable(array_type, initializer);
    // A default's place past the members gives no default.
    if draft.random.percent(40) {
        let members = vec![draft.member_name()];
        let shape = draft.shape(Form::Enumeration {
            members,
            default: draft.records.count(MEMBERS),
            underlying: 0,
        });
        let ty = draft.type_of(shape);
        draft.bare_variable(ty, 6);
    }
}

/// Two enumerations that the resolver holds to be equal, as it skips the
/// members and the default: a field or element of the one starts at a
/// member of the other.
pub fn enumerations_alike(draft: &mut Draft) {
    let underlying = match draft.random.percent(50) {
        true => 0,
        false => Draft::link(draft.integer_shape()),
    };
    let mut shapes = Vec::new();
    for name in [20, 23] {
        let default = draft.random.below(2);
        let shape = draft.shape(Form::Enumeration {
            members: vec![name, name + 1],
            default,
            underlying,
        });
        shapes.push(shape);
    }
    let other = draft.type_of(shapes[1]);
    let structure = draft.structure_shape(&[shapes[0]]);
    let Form::Structure(fields) = draft.form(structure).clone() else {
        return;
    };
    let value = draft.enumerated_link(shapes[1], 40);
    let initializer = draft.initializer(with_value(6, Draft::link(other), value));
    let run = draft.run(ELEMENTS, &[vec![fields[0][0], initializer]]);
    let record = with_run(structure, 5, run);
    let ty = draft.push_type(record, Known::default());
    draft.variable_of(ty);
    let array = draft.array_shape(shapes[0]);
    let mut record = plain(array);
    record[ELEMENT] = Draft::link(other);
    let ty = draft.push_type(record, Known::default());
    draft.variable_of(ty);
}

/// Subranges declared inline and by name, with start values in and out of
/// their bounds, and aliases of them.
pub fn subranges(draft: &mut Draft) {
    let shape = draft.subrange_shape();
    let base = draft.declared_subrange(shape);
    for _ in 0..draft.random.between(1, 3) {
        let ty = match draft.random.below(3) {
            0 => draft.declared_subrange(shape),
            _ => subrange_alias(draft, base),
        };
        draft.variable_of(ty);
    }
    draft.bare_variable(base, 2);
}

/// A simple alias of a subrange: of a named one it drops its own value.
fn subrange_alias(draft: &mut Draft, base: u32) -> u32 {
    let shape = draft.known(base).shape;
    let range = draft.range(shape).unwrap_or((0, 9));
    let value = draft.near(range);
    let value = match draft.random.percent(60) {
        true => Draft::link(draft.integer(value)),
        false => 0,
    };
    let named = draft
        .random
        .pick(&[Draft::link(base), Draft::link(base), INLINE, 0]);
    let kind = if named == INLINE {
        2
    } else {
        draft.random.pick(&[2, 2, 3])
    };
    let initializer = draft.initializer(with_value(kind, named, value));
    let record = simple(shape, initializer);
    draft.push_type(record, Known::default())
}

/// A subrange type that starts at a bit string: completed under kind 2 it
/// becomes an integer.
pub fn bit_strings_in_subranges(draft: &mut Draft) {
    let shape = draft.subrange_shape();
    let (least, greatest) = draft.range(shape).expect("a subrange");
    let value = greatest.max(0).clamp(least.max(0), u64::MAX as Integer);
    let constant = draft.bit_string(value as u64);
    let base = draft.elementary(shape);
    let record = with_value(3, Draft::link(base), Draft::link(constant));
    let initializer = draft.initializer(record);
    let record = simple(shape, initializer);
    let ty = draft.push_type(record, Known::default());
    for kind in [2, 3, 11] {
        draft.bare_variable(ty, kind);
    }
    // A subrange initializer over a value that is no integer is left.
    let number = draft.number_shape();
    let ty = draft.type_of(number);
    draft.bare_variable(ty, 2);
}

/// References with and without a referenced type, and each kind of value.
pub fn references(draft: &mut Draft) {
    let target = draft.any_shape(1);
    let shape = draft.shape(Form::Reference(target));
    let mut record = plain(shape);
    if draft.random.percent(60) {
        record[REFERENCED] = Draft::link(draft.type_of(target));
    }
    if draft.random.percent(50) {
        record[DECLARATION] = 6;
        record[NAMED] = match draft.random.percent(70) {
            true => record[REFERENCED],
            false => draft.other_link(),
        };
    }
    let ty = draft.push_type(record, Known::default());
    for kind in [10, draft.random.pick(&[3, 11, 0])] {
        draft.bare_variable(ty, kind);
    }
    let kind = draft.random.pick(&[4, 5]);
    let value = Draft::link(draft.expression([kind, 0]));
    let initializer = draft.initializer(with_value(10, 0, value));
    draft.variable(ty, initializer);
    // A reference's value is taken at any place.
    let scalar = draft.number_shape();
    let scalar = draft.type_of(scalar);
    draft.variable(scalar, initializer);
    if draft.random.percent(50) {
        let initializer = draft.initializer(bare(10, 0));
        draft.variable(scalar, initializer);
    }
    if draft.random.percent(60) {
        reference_in_structure(draft, shape, initializer);
    }
}

/// A structure with a field of the reference shape that the initializer
/// gives its value, alone and in an array.
fn reference_in_structure(draft: &mut Draft, reference: u32, initializer: u32) {
    let shape = draft.structure_shape(&[reference]);
    let Form::Structure(fields) = draft.form(shape).clone() else {
        return;
    };
    let run = draft.run(ELEMENTS, &[vec![fields[0][0], initializer]]);
    let record = with_run(shape, 5, run);
    let ty = draft.push_type(record, Known::default());
    let kind = draft.random.pick(&[3, 8]);
    draft.bare_variable(ty, kind);
    let element = draft.random.pick(&[shape, reference]);
    let array = draft.array_shape(element);
    let array = draft.type_of(array);
    draft.variable_of(array);
}

/// Interfaces, which have no value, and what holds one.
pub fn interfaces(draft: &mut Draft) {
    let shape = draft.interface_shape();
    let ty = match draft.random.percent(50) {
        true => draft.undeclared(shape),
        false => draft.declared_plainly(shape, 8),
    };
    for kind in [1, draft.random.pick(&[0, 3, 11])] {
        draft.bare_variable(ty, kind);
    }
    let holder = match draft.random.percent(50) {
        true => draft.array_shape(shape),
        false => draft.structure_shape(&[shape]),
    };
    let holder = draft.type_of(holder);
    draft.variable_of(holder);
}
