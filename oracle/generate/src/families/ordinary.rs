//! Types and variables of any kind.

use crate::draft::{Draft, Form};
use crate::types::{plain, simple};
use crate::values::{bare, with_value};
use files::layout::*;

/// Shapes nest at most this deep.
const DEPTH: u32 = 3;

/// A new type of any shape with a variable or two.
pub fn type_and_variable(draft: &mut Draft) {
    let depth = draft.random.below(DEPTH + 1);
    let shape = draft.any_shape(depth);
    let ty = draft.new_type(shape);
    for _ in 0..draft.random.between(1, 2) {
        draft.variable_of(ty);
    }
}

/// A variable of a type that is there.
pub fn variable(draft: &mut Draft) {
    if draft.types() == 0 {
        return type_and_variable(draft);
    }
    let ty = draft.random.below(draft.types());
    draft.variable_of(ty);
}

/// Aliases of aliases, some with start values of their own.
pub fn alias_chain(draft: &mut Draft) {
    let depth = draft.random.below(DEPTH);
    let shape = draft.any_shape(depth);
    let mut ty = draft.type_of(shape);
    for _ in 0..draft.random.between(2, 4) {
        ty = match draft.random.below(4) {
            0 => draft.undeclared_alias(shape),
            _ => draft.alias_of(ty),
        };
    }
    draft.variable_of(ty);
}

/// Variables whose initializers have no value, so that the completed
/// initializer takes its kind from the variable or from the type.
pub fn bare_variables(draft: &mut Draft) {
    for _ in 0..draft.random.between(1, 3) {
        let depth = draft.random.below(DEPTH);
        let shape = draft.any_shape(depth);
        let ty = draft.type_of(shape);
        let kind = draft.random.below(15);
        for kind in [kind, draft.random.pick(&[0, 3, 11])] {
            draft.bare_variable(ty, kind);
        }
    }
}

/// Variables of any type with initializers of any kind.
pub fn any_variables(draft: &mut Draft) {
    for _ in 0..draft.random.between(1, 4) {
        let depth = draft.random.below(2);
        let shape = draft.any_shape(depth);
        let ty = draft.type_of(shape);
        let initializer = draft.any_initializer(Draft::link(ty));
        draft.variable(ty, initializer);
    }
}

/// Types whose declaration needn't suit their shape.
pub fn any_declarations(draft: &mut Draft) {
    for _ in 0..draft.random.between(1, 4) {
        let depth = draft.random.below(2);
        let shape = draft.any_shape(depth);
        let ty = draft.odd_type(shape);
        draft.variable_of(ty);
    }
}

/// Simple declarations with each kind of initializer: those that the
/// resolver doesn't name give the implicit default.
pub fn aliases_of_every_kind(draft: &mut Draft) {
    let shape = draft.any_shape(1);
    let base = draft.type_of(shape);
    for _ in 0..draft.random.between(2, 4) {
        let initializer = draft.any_initializer(Draft::link(base));
        let record = simple(shape, initializer);
        let known = draft.known_as(base);
        let ty = draft.push_type(record, known);
        draft.bare_variable(ty, 3);
    }
}

/// Late bound entries, late resolved initializers, calls and expressions.
pub fn late_bound(draft: &mut Draft) {
    let field = draft.number_shape();
    let shape = draft.structure_shape(&[field]);
    let Form::Structure(fields) = draft.form(shape).clone() else {
        return;
    };
    let name = fields[0][0];
    let ty = draft.type_of(shape);
    let late = [5, name, 0, 0];
    let kind = draft.random.pick(&[7, 8]);
    let record = draft.with_entries(kind, Draft::link(ty), &[late]);
    let initializer = draft.initializer(record);
    draft.variable(ty, initializer);
    let scalar = draft.type_of(field);
    let constant = draft.constant_for(field);
    let valued = with_value(11, Draft::link(scalar), Draft::link(constant));
    for record in [valued, bare(11, Draft::link(scalar))] {
        let initializer = draft.initializer(record);
        draft.variable(scalar, initializer);
    }
    let kind = draft.random.between(12, 14);
    draft.bare_variable(ty, kind);
    draft.declared_plainly(shape, 8);
}

/// Records that nothing points at.
pub fn surplus(draft: &mut Draft) {
    for _ in 0..draft.random.between(1, 4) {
        let section = draft.random.between(MEMBERS as u32, 13) as usize;
        if section != TYPES && draft.has_room(section, 20) {
            let record = surplus_record(draft, section);
            draft.records.push(section, &record);
        }
    }
}

/// A record that may stand in `section` without anything pointing at it.
fn surplus_record(draft: &mut Draft, section: usize) -> Vec<u32> {
    match section {
        MEMBERS => vec![draft.member_name()],
        SHAPE_FIELDS => {
            let shape = draft.number_shape();
            vec![draft.field_name(), shape, draft.random.below(2)]
        }
        DIMENSIONS => vec![i32::MIN as u32, i32::MAX as u32],
        BLOCK_FIELDS => vec![
            draft.field_name(),
            draft.other_link(),
            draft.random.below(4),
        ],
        ELEMENTS => vec![draft.field_name(), an_initializer(draft)],
        VARIABLES => {
            let kind = draft.random.below(6);
            vec![0, kind, draft.other_link(), an_initializer(draft)]
        }
        INITIALIZERS => bare(draft.random.below(15), 0).to_vec(),
        // An entry of any kind, named or not, where nothing points at it.
        ENTRIES => match draft.random.below(3) {
            0 => vec![5, 0, 0, 0],
            1 => vec![6, draft.field_name(), u32::MAX, 0],
            _ => vec![2, 0, 0, 0],
        },
        EXPRESSIONS => vec![draft.random.between(4, 6), 0],
        CONSTANTS => {
            let constant = draft.any_constant();
            draft.records.sections[CONSTANTS][constant as usize].clone()
        }
        _ => vec![draft.random.below(256)],
    }
}

/// An initializer that is there, so that filling one section doesn't fill
/// another past its limit.
fn an_initializer(draft: &mut Draft) -> u32 {
    match draft.records.count(INITIALIZERS) {
        0 => draft.initializer(bare(0, 0)),
        count => draft.random.below(count),
    }
}

/// Fills one section to exactly its limit.
pub fn fill_a_section(draft: &mut Draft) {
    let section = draft.random.between(1, 13) as usize;
    if !draft.has_room(INITIALIZERS, 20) || !draft.has_room(SHAPES, 20) {
        return;
    }
    while draft.has_room(section, 1) {
        match section {
            SHAPES => {
                let name = 1000 + draft.shapes();
                draft.shape(Form::Interface(name));
            }
            TYPES => {
                let shape = draft.random.below(draft.shapes());
                draft.push_type(plain(shape), Default::default());
            }
            _ => {
                let record = surplus_record(draft, section);
                if draft.has_room(section, 1) {
                    draft.records.push(section, &record);
                }
            }
        }
    }
}

/// Strings of as many characters as a file can hold, and one fewer.
pub fn longest_strings(draft: &mut Draft) {
    while draft.has_room(CHARACTERS, 1) {
        let character = draft.random.below(256);
        draft.records.push(CHARACTERS, &[character]);
    }
    let most = MOST[CHARACTERS] as u32;
    for (first, count) in [(0, most), (0, most - 1), (1, most - 1), (1, most - 2)] {
        let width = draft.random.below(2);
        let length = draft.random.pick(&[0, most - 1, most, most + 1]);
        let shape = draft.shape(Form::Text(length, width));
        let ty = draft.type_of(shape);
        let constant = draft.constant([8, 0, first, count, width]);
        draft.constant_variable(ty, constant);
    }
}
