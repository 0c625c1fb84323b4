//! Function blocks: variables, block records, aliases.

use super::aggregates::listed;
use crate::draft::{Draft, Form, Known};
use crate::types::{plain, with_run, ALIAS_BASE, BLOCK, DECLARATION, RUN};
use crate::values::bare;
use files::layout::*;

fn block_shape(draft: &mut Draft) -> u32 {
    let name = draft.block_name();
    draft.shape(Form::Block(name))
}

/// A block with instances that have members of their own.
pub fn blocks(draft: &mut Draft) {
    let shape = block_shape(draft);
    let types: Vec<u32> = (0..draft.random.between(1, 3))
        .map(|_| draft.part_type())
        .collect();
    let ty = draft.block_of(shape, &types);
    draft.variable_of(ty);
    // A block in a block, an array of blocks, or a structure with one.
    match draft.random.below(4) {
        0 => {
            let shape = block_shape(draft);
            let outer = draft.block_of(shape, &[ty, types[0]]);
            draft.variable_of(outer);
        }
        1 if draft.known(ty).nodes < 60 => {
            let array = draft.array_shape(shape);
            let array = draft.type_of(array);
            draft.variable_of(array);
        }
        2 => {
            let structure = draft.structure_shape(&[shape]);
            let structure = draft.type_of(structure);
            draft.variable_of(structure);
        }
        _ => {
            draft.bare_variable(ty, 3);
        }
    }
}

/// Blocks that only their record describes.
pub fn standard_blocks(draft: &mut Draft) {
    let ty = draft.standard_block();
    draft.variable_of(ty);
    let kind = draft.random.pick(&[0, 3, 7, 11]);
    draft.bare_variable(ty, kind);
}

/// Block fields of other types, names, kinds and order than the variables.
pub fn blocks_that_disagree(draft: &mut Draft) {
    let shape = block_shape(draft);
    let types: Vec<u32> = (0..draft.random.between(1, 3))
        .map(|_| draft.part_type())
        .collect();
    let mut variables = Vec::new();
    let mut fields = Vec::new();
    for (place, ty) in types.iter().enumerate() {
        let name = place as u32 + 1;
        let initializer = draft.variable_initializer(*ty);
        let kind = draft.random.pick(&[0, 1, 4, 4, 2, 3, 5]);
        variables.push(vec![name, kind, Draft::link(*ty), initializer]);
        let other = draft.part_type();
        let link = draft
            .random
            .pick(&[Draft::link(*ty), Draft::link(*ty), Draft::link(other), 0]);
        fields.push(vec![name, link, draft.random.below(4)]);
    }
    draft.random.shuffle(&mut fields);
    if draft.random.percent(30) {
        draft.disorder(&mut fields);
    }
    let (first, count) = draft.run(VARIABLES, &variables);
    let (first_field, field_count) = draft.run(BLOCK_FIELDS, &fields);
    let nodes = types.iter().map(|ty| draft.known(*ty).nodes).sum::<u64>() + 1;
    let known = Known {
        fields: fields
            .iter()
            .map(|field| (field[0], field[1].checked_sub(1)))
            .collect(),
        nodes: 2 * nodes + 60,
        ..Known::default()
    };
    let mut record = plain(shape);
    record[DECLARATION] = 9;
    record[RUN] = first;
    record[RUN + 1] = count;
    record[BLOCK] = first_field;
    record[BLOCK + 1] = field_count;
    let ty = draft.push_type(record, known.clone());
    draft.variable_of(ty);
    // The same record without the declaration: the implicit default.
    let mut record = plain(shape);
    record[BLOCK] = first_field;
    record[BLOCK + 1] = field_count;
    let ty = draft.push_type(record, known);
    draft.bare_variable(ty, 7);
}

/// A declared block without a record has a default and takes no members.
pub fn block_without_record(draft: &mut Draft) {
    let shape = block_shape(draft);
    let part = draft.part_type();
    let initializer = draft.variable_initializer(part);
    let variable = vec![1, 4, Draft::link(part), initializer];
    let run = draft.run(VARIABLES, &[variable]);
    let record = with_run(shape, 9, run);
    let known = Known {
        nodes: draft.known(part).nodes + 1,
        ..Known::default()
    };
    let ty = draft.push_type(record, known.clone());
    let kind = draft.random.pick(&[3, 7]);
    draft.bare_variable(ty, kind);
    let member = draft.entry_for(draft.place(part), 1);
    listed(draft, ty, 7, &[member]);
    // An alias of it, and a block type that nothing describes.
    let alias = draft.alias_of(ty);
    draft.bare_variable(alias, 7);
    let bare_block = draft.push_type(plain(shape), known);
    draft.bare_variable(bare_block, 7);
}

/// Aliases of blocks: their fields are found along the alias bases.
pub fn aliases_of_blocks(draft: &mut Draft) {
    let base = match draft.random.percent(50) {
        true => draft.standard_block(),
        false => {
            let shape = block_shape(draft);
            let part = draft.part_type();
            draft.block_of(shape, &[part])
        }
    };
    let shape = draft.known(base).shape;
    let mut ty = base;
    for _ in 0..draft.random.between(1, 3) {
        ty = match draft.random.percent(40) {
            true => {
                let mut record = plain(shape);
                record[ALIAS_BASE] = Draft::link(ty);
                let known = draft.known_as(ty);
                draft.push_type(record, known)
            }
            false => draft.alias_of(ty),
        };
    }
    draft.variable_of(ty);
    let initializer = draft.initializer(bare(7, Draft::link(base)));
    draft.variable(ty, initializer);
}
