//! Things in things in things: structures, member lists, repeats,
//! parentheses and aliases, some levels in a small file and up to the
//! limits of the sections in a large one.

use super::aggregates::listed;
use crate::draft::{Draft, Form, Known};
use crate::types::{plain, ALIAS_BASE, DECLARATION, START};
use crate::values::bare;
use files::layout::*;

/// How many levels a small file has.
const SOME_LEVELS: u32 = 12;

/// Each sort of nesting with some levels.
pub fn some_levels(draft: &mut Draft) {
    let levels = draft.random.between(3, SOME_LEVELS);
    match draft.random.below(4) {
        0 => structures(draft, levels),
        1 => repeats(draft, levels),
        2 => expressions(draft, levels),
        _ => aliases(draft, levels),
    }
}

/// One sort of nesting with as many levels as there is room for, or fewer.
pub fn many_levels(draft: &mut Draft) {
    let (section, nest): (usize, fn(&mut Draft, u32)) = match draft.random.below(4) {
        0 => (SHAPES, structures),
        1 => (ENTRIES, repeats),
        2 => (EXPRESSIONS, expressions),
        _ => (TYPES, aliases),
    };
    // Room is left for the few records beside the levels.
    let room = (MOST[section] as u32 - draft.records.count(section)).saturating_sub(40);
    let levels = draft.random.between(room / 2, room);
    nest(draft, levels);
}

/// Structures in structures, with member lists as deep.
fn structures(draft: &mut Draft, levels: u32) {
    let leaf = draft.number_shape();
    let mut shape = leaf;
    let mut entry = [0, 1, draft.constant_for(leaf), 0];
    for level in 0..levels {
        if level > 0 {
            let (first, count) = draft.entries(&[entry]);
            entry = [3, 1, first, count];
        }
        shape = draft.shape(Form::Structure(vec![[1, shape, level % 2]]));
    }
    let ty = draft.undeclared(shape);
    listed(draft, ty, 8, &[entry]);
    draft.bare_variable(ty, 3);
}

/// Repeats of repeats of one constant.
fn repeats(draft: &mut Draft, levels: u32) {
    let leaf = draft.number_shape();
    let shape = draft.array_of(leaf, vec![(1, 4)]);
    let ty = draft.type_of(shape);
    let mut entry = [0, 0, draft.constant_for(leaf), 0];
    for level in 0..levels {
        let inner = draft.records.push(ENTRIES, &entry);
        // Each multiplies what it holds, so that all but a few are 1.
        let count = match level {
            0 | 1 => draft.random.between(1, 2),
            _ => 1,
        };
        entry = [6, 0, count, Draft::link(inner)];
    }
    listed(draft, ty, 9, &[entry]);
}

/// Parentheses in parentheses around a constant or a conversion.
fn expressions(draft: &mut Draft, levels: u32) {
    let leaf = draft.number_shape();
    let shape = draft.shape(Form::Structure(vec![[1, leaf, 0]]));
    let ty = draft.type_of(shape);
    let constant = draft.constant_for(leaf);
    let mut expression = draft.records.push(EXPRESSIONS, &[0, constant]);
    let conversion = draft.random.below(levels + 1);
    for level in 0..levels {
        let kind = if level == conversion { 3 } else { 2 };
        expression = draft.records.push(EXPRESSIONS, &[kind, expression]);
    }
    listed(draft, ty, 8, &[[4, 1, expression, 0]]);
}

/// Aliases of aliases, declared or known to the environment only.
fn aliases(draft: &mut Draft, levels: u32) {
    let leaf = draft.number_shape();
    let shape = match draft.random.percent(50) {
        true => leaf,
        false => draft.shape(Form::Structure(vec![[1, leaf, 0]])),
    };
    let mut ty = draft.type_of(shape);
    let declared_share = draft.random.pick(&[0, 50, 100]);
    for _ in 0..levels {
        let mut record = plain(shape);
        if draft.random.percent(declared_share) {
            let initializer = draft.initializer(bare(3, Draft::link(ty)));
            record[DECLARATION] = 1;
            record[START] = Draft::link(initializer);
        } else {
            record[ALIAS_BASE] = Draft::link(ty);
        }
        ty = draft.push_type(record, Known::default());
    }
    draft.bare_variable(ty, 3);
    draft.variable_of(ty);
}
