//! Trees just below, at and above 2,048 nodes.

use super::aggregates::listed;
use crate::draft::{Draft, Form};
use crate::values::Entry;
use files::layout::*;

/// The most nodes of a tree.
const MOST_NODES: u32 = 2048;

/// A type of about 2,048 nodes, with variables over it.
pub fn near_limit(draft: &mut Draft) {
    let nodes = draft.random.between(MOST_NODES - 2, MOST_NODES + 2);
    let leaf = draft.number_shape();
    let shape = match draft.random.below(5) {
        0 | 1 => draft.array_of(leaf, vec![(1, nodes as i32 - 1)]),
        2 => factored(draft, leaf, nodes - 1),
        3 => structure_with_array(draft, leaf, nodes),
        _ => array_of_structures(draft, leaf, nodes),
    };
    let ty = match draft.random.below(3) {
        0 => draft.undeclared(shape),
        1 => draft.declared(shape),
        _ => {
            let base = draft.undeclared(shape);
            draft.alias_of(base)
        }
    };
    draft.bare_variable(ty, 3);
    if draft.random.percent(30) {
        larger(draft, ty);
    }
    if matches!(draft.form(shape), Form::Array { .. }) {
        filled(draft, ty);
    } else {
        draft.variable_of(ty);
    }
}

/// Something that holds the type `ty` and is larger still.
fn larger(draft: &mut Draft, ty: u32) {
    let shape = draft.known(ty).shape;
    let holder = match draft.random.below(3) {
        0 => draft.array_of(shape, vec![(1, 2)]),
        1 => draft.structure_shape(&[shape]),
        _ => {
            let name = draft.block_name();
            let block = draft.shape(Form::Block(name));
            let part = draft.part_type();
            let block = draft.block_of(block, &[part, ty]);
            draft.bare_variable(block, 7);
            return;
        }
    };
    let holder = draft.undeclared(holder);
    draft.bare_variable(holder, 3);
}

/// An array of arrays of `count` leaves in all, where `count` has factors.
fn factored(draft: &mut Draft, leaf: u32, count: u32) -> u32 {
    let factor = [2, 3, 5, 7, 11, 13, 23, 31]
        .into_iter()
        .find(|factor| count.is_multiple_of(*factor))
        .unwrap_or(1);
    let (inner, outer) = match draft.random.percent(50) {
        true => (factor, count / factor),
        false => (count / factor, factor),
    };
    if draft.random.percent(30) {
        return draft.array_of(leaf, vec![(1, outer as i32), (0, inner as i32 - 1)]);
    }
    let inner = draft.array_of(leaf, vec![(1, inner as i32)]);
    draft.array_of(inner, vec![(1, outer as i32)])
}

/// A structure of `nodes` nodes, most of them in one or two arrays.
fn structure_with_array(draft: &mut Draft, leaf: u32, nodes: u32) -> u32 {
    // The structure's head, an array's head and a number.
    let count = nodes - 3;
    if draft.random.percent(50) {
        let array = draft.array_of(leaf, vec![(1, count as i32)]);
        return draft.structure_shape(&[leaf, array]);
    }
    let half = count / 2;
    let first = draft.array_of(leaf, vec![(1, half as i32)]);
    let second = draft.array_of(leaf, vec![(1, (count - half - 1) as i32)]);
    draft.structure_shape(&[first, leaf, second])
}

/// An array of small structures of about `nodes` nodes in all.
fn array_of_structures(draft: &mut Draft, leaf: u32, nodes: u32) -> u32 {
    let parts = draft.random.pick(&[0u32, 1, 2, 22]);
    let element = draft.structure_shape(&vec![leaf; parts as usize]);
    let count = (nodes - 1) / (parts + 1) + draft.random.below(2);
    draft.array_of(element, vec![(1, count as i32)])
}

/// Variables whose lists fill the array `ty` or go past it.
fn filled(draft: &mut Draft, ty: u32) {
    let (count, place) = draft.leaves(draft.place(ty));
    let entry = draft.entry_for(place, 0);
    let inner = Draft::link(draft.single(ENTRIES, &entry));
    let times = draft.random.pick(&[count - 1, count, count + 1, 1]);
    let mut entries: Vec<Entry> = vec![[6, 0, times, inner]];
    match draft.random.below(5) {
        0 => entries.push(entry),
        1 => entries.push([6, 0, 1, 0]),
        2 => {
            // A repeat of a repeat: the repetition is a tree of its own.
            let half = draft.single(ENTRIES, &[6, 0, count / 2, inner]);
            entries = vec![[6, 0, 2, Draft::link(half)]];
        }
        3 => {
            // The repetition is formed and given up.
            let all = draft.single(ENTRIES, &[6, 0, times, inner]);
            entries = vec![[6, 0, 0, Draft::link(all)]];
        }
        _ => {}
    }
    listed(draft, ty, 9, &entries);
}
