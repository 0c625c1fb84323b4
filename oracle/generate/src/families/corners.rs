//! Corners of the resolver, each with random surroundings.

use super::aggregates::listed;
use crate::draft::{Draft, Form, Known, Place};
use crate::types::{plain, simple, ELEMENT};
use crate::values::{bare, with_value, Entry};
use files::layout::*;

/// An entry with an integer constant.
fn integer_entry(draft: &mut Draft, value: i128) -> Entry {
    [0, 0, draft.integer(value), 0]
}

/// A repeat of `inner`.
fn repeated(draft: &mut Draft, count: u32, inner: Entry) -> Entry {
    let inner = draft.single(ENTRIES, &inner);
    [6, 0, count, Draft::link(inner)]
}

/// An integer array type of `count` places.
fn integer_array(draft: &mut Draft, count: u32) -> u32 {
    let leaf = draft.shape(Form::Sized(1, 16));
    let shape = draft.array_of(leaf, vec![(1, count as i32)]);
    draft.type_of(shape)
}

/// `[7, 0(7)]` and `[7, 0()]` on a full array, and the like.
pub fn zero_repeats(draft: &mut Draft) {
    let count = draft.random.between(1, 3);
    let ty = integer_array(draft, count);
    let seven = integer_entry(draft, 7);
    let inner = match draft.random.below(3) {
        0 => [0, 0, draft.boolean(true), 0],
        1 => repeated(draft, 0, seven),
        _ => seven,
    };
    let zero = match draft.random.percent(60) {
        true => repeated(draft, 0, inner),
        false => [6, 0, 0, 0],
    };
    let before = draft.random.between(count.saturating_sub(1), count);
    let mut entries = vec![seven; before as usize];
    entries.push(zero);
    listed(draft, ty, 9, &entries);
    listed(draft, ty, 9, &[zero]);
}

/// An inner repeat's count is held against the places left, an outer one's
/// against all.
pub fn nested_repeats(draft: &mut Draft) {
    let count = draft.random.between(2, 5);
    let ty = integer_array(draft, count);
    for _ in 0..2 {
        let before = draft.random.below(count);
        let left = count - before;
        let seven = integer_entry(draft, 7);
        let inner_count = draft.random.pick(&[left - 1, left, left + 1, count, 1]);
        let inner = match draft.random.percent(70) {
            true => repeated(draft, inner_count, seven),
            false => [6, 0, inner_count, 0],
        };
        let outer_count = draft.random.pick(&[0, 1, 1, 2, count, count + 1]);
        let outer = repeated(draft, outer_count, inner);
        let mut entries = vec![seven; before as usize];
        entries.push(outer);
        listed(draft, ty, 9, &entries);
    }
}

/// An element type of one node's shape whose default is an array: the
/// array's places are counted by that default.
pub fn elements_that_are_arrays(draft: &mut Draft) {
    let inner_count = draft.random.between(2, 3);
    let inner = integer_array(draft, inner_count);
    let leaf = draft.shape(Form::Sized(1, 16));
    let kind = draft.random.pick(&[3, 9]);
    let initializer = draft.initializer(bare(kind, Draft::link(inner)));
    let record = simple(leaf, initializer);
    let element = draft.push_type(
        record,
        Known {
            nodes: 1 + u64::from(inner_count),
            ..Known::default()
        },
    );
    let count = draft.random.between(1, 2);
    let shape = draft.array_of(leaf, vec![(1, count as i32)]);
    let mut record = plain(shape);
    record[ELEMENT] = Draft::link(element);
    let known = Known {
        element: Some(element),
        nodes: draft.array_nodes(shape, 1 + u64::from(inner_count)),
        ..Known::default()
    };
    let ty = draft.push_type(record, known);
    let places = count * inner_count;
    let seven = integer_entry(draft, 7);
    let times = draft.random.pick(&[count, places - 1, places, places + 1]);
    let entry = repeated(draft, times, seven);
    listed(draft, ty, 9, &[entry]);
    draft.bare_variable(ty, 9);
}

/// `(1 := other, 1 := (1 := 5))`: members over an expression give none.
pub fn expression_then_members(draft: &mut Draft) {
    let leaf = draft.number_shape();
    let inner = draft.shape(Form::Structure(vec![[1, leaf, 0]]));
    let shape = draft.shape(Form::Structure(vec![[1, inner, 0], [2, leaf, 0]]));
    let ty = draft.type_of(shape);
    let five = [0, 1, draft.constant_for(leaf), 0];
    let (first, count) = draft.entries(&[five]);
    let nested = [3, 1, first, count];
    let other = [4, 1, draft.any_expression(), 0];
    let mut members = vec![other, nested];
    draft.random.shuffle(&mut members);
    listed(draft, ty, 8, &members);
    // The same over a type whose own value is the expression.
    let record = draft.with_entries(8, Draft::link(ty), &[other]);
    let initializer = draft.initializer(record);
    let record = simple(shape, initializer);
    let known = draft.known_as(ty);
    let alias = draft.push_type(record, known);
    listed(draft, alias, 8, &[nested]);
    draft.bare_variable(alias, 3);
}

/// Lists that end exactly at the last place or go one past it, by each
/// kind of entry.
pub fn places_left(draft: &mut Draft) {
    let part = draft.number_shape();
    let leaf = match draft.random.percent(50) {
        true => part,
        false => draft.structure_shape(&[part]),
    };
    let count = draft.random.between(1, 3);
    let shape = draft.array_of(leaf, vec![(1, count as i32)]);
    let ty = draft.type_of(shape);
    let (_, place) = draft.leaves(draft.place(ty));
    for _ in 0..2 {
        let total = draft.random.between(count, count + 1);
        let mut entries: Vec<Entry> = Vec::new();
        for _ in 0..total - 1 {
            let entry = draft.entry_for(place, 0);
            entries.push(entry);
        }
        let last = match draft.random.below(3) {
            0 => [6, 0, 1, 0],
            1 => {
                let entry = draft.entry_for(place, 0);
                repeated(draft, 1, entry)
            }
            _ => draft.entry_for(place, 0),
        };
        entries.push(last);
        listed(draft, ty, 9, &entries);
    }
}

/// A name that the tree has and the place hasn't, and the other way round:
/// members need both.
pub fn fields_elsewhere(draft: &mut Draft) {
    let leaf = draft.number_shape();
    let shape = draft.shape(Form::Structure(vec![[1, leaf, 0], [2, leaf, 1]]));
    let other = draft.shape(Form::Structure(vec![[2, leaf, 0], [3, leaf, 1]]));
    let base = draft.type_of(other);
    // The tree is of `other`, the place of `shape`.
    let initializer = draft.initializer(bare(3, Draft::link(base)));
    let record = simple(shape, initializer);
    let ty = draft.push_type(record, Known::default());
    let name = draft.random.between(1, 3);
    let place = Place {
        shape: leaf,
        ty: None,
    };
    let member = draft.entry_for(place, name);
    listed(draft, ty, 8, &[member]);
    draft.bare_variable(ty, 8);
    // Members over a value that is no structure.
    let number = draft.type_of(leaf);
    listed(draft, number, 8, &[member]);
    // A start value that is never converted again where another takes it.
    let real = draft.shape(Form::Sized(3, 32));
    let constant = draft.constant_for(leaf);
    let record = with_value(3, Draft::link(number), Draft::link(constant));
    let initializer = draft.initializer(record);
    let record = simple(leaf, initializer);
    let valued = draft.push_type(record, Known::default());
    let initializer = draft.initializer(bare(3, Draft::link(valued)));
    let record = simple(real, initializer);
    let ty = draft.push_type(record, Known::default());
    draft.bare_variable(ty, 3);
}
