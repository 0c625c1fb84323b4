//! Arrays and structures.

use crate::draft::{Draft, Form, Known, Place};
use crate::types::{plain, simple, with_run, DECLARATION, ELEMENT, NAMED};
use crate::values::Entry;
use files::layout::*;

/// The name and shape of each field of a structure shape.
fn fields(draft: &Draft, shape: u32) -> Vec<[u32; 3]> {
    match draft.form(shape) {
        Form::Structure(fields) => fields.clone(),
        _ => Vec::new(),
    }
}

/// A variable of the type whose initializer of `kind` holds `entries`.
pub fn listed(draft: &mut Draft, ty: u32, kind: u32, entries: &[Entry]) {
    let record = draft.with_entries(kind, Draft::link(ty), entries);
    let initializer = draft.initializer(record);
    draft.variable(ty, initializer);
}

/// Arrays of arrays, named and inline: rows with their own start values.
pub fn arrays_of_arrays(draft: &mut Draft) {
    let leaf = draft.leaf_shape();
    let mut shape = leaf;
    for _ in 0..draft.random.between(2, 3) {
        let dimensions = match draft.random.percent(60) {
            true => vec![(1, draft.random.between(1, 3) as i32)],
            false => draft.dimensions(),
        };
        if draft.shape_nodes(shape) > 60 {
            break;
        }
        shape = draft.array_of(shape, dimensions);
        let ty = draft.declared_array(shape);
        if draft.random.percent(50) {
            draft.variable_of(ty);
        }
    }
    let ty = draft.type_of(shape);
    draft.variable_of(ty);
}

/// An array of a structure that is named through three aliases.
pub fn structures_through_aliases(draft: &mut Draft) {
    let parts: Vec<u32> = (0..draft.random.between(1, 3))
        .map(|_| draft.leaf_shape())
        .collect();
    let structure = draft.structure_shape(&parts);
    let mut ty = draft.declared_structure(structure);
    for _ in 0..3 {
        ty = draft.alias_of(ty);
    }
    let array = draft.array_shape(structure);
    let mut record = plain(array);
    record[ELEMENT] = Draft::link(ty);
    if draft.random.percent(50) {
        record[DECLARATION] = 4;
        record[NAMED] = INLINE;
    }
    let known = Known {
        element: Some(ty),
        nodes: draft.array_nodes(array, draft.known(ty).nodes),
        ..Known::default()
    };
    let ty = draft.push_type(record, known);
    for _ in 0..draft.random.between(1, 2) {
        draft.variable_of(ty);
    }
}

/// Structures in structures with members at each level.
pub fn structures(draft: &mut Draft) {
    let leaf = draft.leaf_shape();
    let inner_leaf = draft.leaf_shape();
    let inner = draft.structure_shape(&[inner_leaf, leaf]);
    let array = draft.array_shape(leaf);
    let shape = draft.structure_shape(&[inner, leaf, array]);
    let ty = draft.declared_structure(shape);
    let ty = match draft.random.below(10) {
        0..=3 => draft.alias_of(ty),
        4 | 5 => alias_by_members(draft, ty),
        _ => ty,
    };
    for _ in 0..draft.random.between(1, 2) {
        draft.variable_of(ty);
    }
    if draft.random.percent(30) {
        draft.undeclared(shape);
    }
}

/// An alias that only its own declaration names, by a structure or a block
/// initializer with members.
fn alias_by_members(draft: &mut Draft, base: u32) -> u32 {
    let members = draft.members_for(draft.place(base));
    let kind = draft.random.pick(&[7, 8]);
    let record = draft.with_entries(kind, Draft::link(base), &members);
    let initializer = draft.initializer(record);
    let record = simple(draft.known(base).shape, initializer);
    let known = draft.known_as(base);
    draft.push_type(record, known)
}

/// Array lists with repeats of every sort near the number of places.
pub fn repeats(draft: &mut Draft) {
    let leaf = draft.leaf_shape();
    let shape = draft.array_shape(leaf);
    let ty = draft.type_of(shape);
    let (count, place) = draft.leaves(draft.place(ty));
    for _ in 0..draft.random.between(1, 3) {
        let mut entries = Vec::new();
        for _ in 0..draft.random.between(1, 3) {
            let entry = repeat(draft, place, count, 2);
            entries.push(entry);
        }
        listed(draft, ty, 9, &entries);
    }
}

/// A repeat over places of `count`, at most `depth` deep.
fn repeat(draft: &mut Draft, place: Place, count: u32, depth: u32) -> Entry {
    let most = match draft.random.below(8) {
        0 => count + 1,
        1 | 2 => count,
        _ => draft.random.below(count + 1),
    };
    let inner = match draft.random.below(5) {
        0 => return [6, 0, most, 0],
        1 | 2 if depth > 0 => repeat(draft, place, count, depth - 1),
        _ => draft.entry_for(place, 0),
    };
    let inner = draft.single(ENTRIES, &inner);
    [6, 0, most, Draft::link(inner)]
}

/// Expressions of every kind as members and as array items, at structures
/// too.
pub fn expressions(draft: &mut Draft) {
    let leaf = draft.leaf_shape();
    let inner = draft.structure_shape(&[leaf]);
    let reference = draft.shape(Form::Reference(leaf));
    let shape = draft.structure_shape(&[leaf, inner, reference]);
    let ty = draft.type_of(shape);
    let mut members = Vec::new();
    for (name, place) in draft.fields(draft.place(ty)) {
        let expression = draft.expression_for(place);
        members.push([4, name, expression, 0]);
    }
    listed(draft, ty, 8, &members);
    let array = draft.array_shape(leaf);
    let ty = draft.type_of(array);
    let (_, place) = draft.leaves(draft.place(ty));
    let items: Vec<Entry> = (0..draft.random.between(1, 2))
        .map(|_| [4, 0, draft.expression_for(place), 0])
        .collect();
    listed(draft, ty, 9, &items);
}

/// Members named twice, at one level and at another.
pub fn members_twice(draft: &mut Draft) {
    let leaf = draft.leaf_shape();
    let inner = draft.structure_shape(&[leaf, leaf]);
    let shape = draft.structure_shape(&[inner, leaf]);
    let ty = draft.type_of(shape);
    let places = draft.fields(draft.place(ty));
    let (name, place) = places[0];
    let mut members = Vec::new();
    for _ in 0..2 {
        let inner = draft.members_for(place);
        let (first, count) = draft.entries(&inner);
        members.push([3, name, first, count]);
    }
    let (name, place) = places[1];
    for _ in 0..2 {
        let member = draft.entry_for(place, name);
        members.push(member);
    }
    draft.random.shuffle(&mut members);
    listed(draft, ty, 8, &members);
}

/// A structure shape with two fields of one name: both take the first
/// one's place.
pub fn two_fields_of_one_name(draft: &mut Draft) {
    let first = draft.leaf_shape();
    let second = draft.any_shape(1);
    let name = draft.field_name();
    let mut fields = vec![[name, first, 0], [name, second, 1]];
    if draft.random.percent(50) {
        fields.push([name + 1, first, 0]);
    }
    let shape = draft.shape(Form::Structure(fields));
    let ty = match draft.random.percent(50) {
        true => draft.undeclared(shape),
        false => draft.declared_structure(shape),
    };
    draft.bare_variable(ty, 8);
    let member = draft.entry_for(
        Place {
            shape: first,
            ty: None,
        },
        name,
    );
    listed(draft, ty, 8, &[member]);
}

/// A declared structure follows its elements: others than the fields of
/// its shape, in another order, some twice, some left out.
pub fn elements_unlike_shape(draft: &mut Draft) {
    let first = draft.leaf_shape();
    let second = draft.leaf_shape();
    let shape = draft.structure_shape(&[first, second]);
    let names: Vec<u32> = fields(draft, shape).iter().map(|field| field[0]).collect();
    let mut elements = Vec::new();
    let mut known = Known::default();
    for _ in 0..draft.random.below(4) {
        let name = match draft.odd() {
            true => draft.field_name(),
            false => draft.random.pick(&names),
        };
        let field = draft.random.pick(&[first, second]);
        let ty = draft.type_of(field);
        let initializer = draft.variable_initializer(ty);
        elements.push(vec![name, initializer]);
        known.fields.push((name, Some(ty)));
    }
    let run = draft.run(ELEMENTS, &elements);
    let record = with_run(shape, 5, run);
    let ty = draft.push_type(record, known);
    draft.variable_of(ty);
    let ty = draft.alias_of(ty);
    draft.variable_of(ty);
}
