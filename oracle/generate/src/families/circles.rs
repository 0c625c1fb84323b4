//! Types that lead to themselves. A type met again while in progress gives
//! none, so that the order of the types decides.

use crate::draft::{Draft, Form, Known};
use crate::types::{plain, with_run, ALIAS_BASE, BLOCK, DECLARATION, ELEMENT, NAMED, RUN, START};
use crate::values::{bare, with_value};
use files::layout::*;

/// Two to four types, each leading to the next and the last to the first.
pub fn circles(draft: &mut Draft) {
    let leaf = match draft.random.percent(50) {
        true => draft.integer_shape(),
        false => draft.subrange_shape(),
    };
    let count = draft.random.between(1, 4);
    let first = draft.types();
    // Each link of the circle takes part in what the next one is worth, and
    // arrays multiply it: short ones only.
    let known = Known {
        nodes: 250,
        ..Known::default()
    };
    for place in 0..count {
        let next = Draft::link(first + (place + 1) % count);
        let record = leading_to(draft, leaf, next);
        draft.push_type(record, known.clone());
    }
    for place in 0..count {
        if draft.random.percent(60) {
            draft.bare_variable(first + place, 3);
        }
    }
}

/// A type record that leads to the type `next`.
fn leading_to(draft: &mut Draft, leaf: u32, next: u32) -> [u32; 11] {
    let mut record = plain(leaf);
    match draft.random.below(9) {
        0 => record[ALIAS_BASE] = next,
        1 | 2 => {
            let initializer = draft.initializer(bare(3, next));
            record[DECLARATION] = 1;
            record[START] = Draft::link(initializer);
        }
        3 | 4 => {
            record[DECLARATION] = 2;
            record[NAMED] = next;
            if draft.random.percent(50) {
                let range = draft.range(leaf).expect("an integer shape");
                let value = draft.near(range);
                record[START] = Draft::link(draft.integer(value));
            }
        }
        5 => {
            record[DECLARATION] = 4;
            record[NAMED] = next;
        }
        6 => {
            let array = draft.array_of(leaf, vec![(1, 2)]);
            record[0] = array;
            record[ELEMENT] = next;
            if draft.random.percent(50) {
                record[DECLARATION] = 4;
                record[NAMED] = INLINE;
            }
        }
        7 => {
            let structure = draft.structure_shape(&[leaf]);
            let Form::Structure(fields) = draft.form(structure).clone() else {
                return record;
            };
            let initializer = draft.initializer(bare(3, next));
            let (first, count) = draft.run(ELEMENTS, &[vec![fields[0][0], initializer]]);
            record[0] = structure;
            record[DECLARATION] = 5;
            record[RUN] = first;
            record[RUN + 1] = count;
        }
        _ => {
            let name = draft.block_name();
            record[0] = draft.shape(Form::Block(name));
            let initializer = draft.initializer(bare(3, next));
            let (first, count) = draft.run(VARIABLES, &[vec![1, 4, next, initializer]]);
            record[DECLARATION] = 9;
            record[RUN] = first;
            record[RUN + 1] = count;
        }
    }
    record
}

/// Three to five types, each naming some of the others in any order: which
/// of them is in progress when another is asked for decides what is none.
pub fn tangles(draft: &mut Draft) {
    let leaf = draft.integer_shape();
    let pair = draft.shape(Form::Structure(vec![[1, leaf, 0], [2, leaf, 0]]));
    let holder = draft.shape(Form::Structure(vec![[1, pair, 0], [2, leaf, 0]]));
    let row = draft.array_of(leaf, vec![(1, 2)]);
    let rows = draft.array_of(pair, vec![(0, 1)]);
    let first = draft.types();
    let shapes: Vec<u32> = (0..draft.random.between(3, 5))
        .map(|place| match draft.random.below(7) {
            0 | 1 => leaf,
            2 => pair,
            3 => holder,
            4 => row,
            5 => rows,
            _ => draft.shape(Form::Block(60 + place)),
        })
        .collect();
    let tangle = Tangle { first, shapes };
    for place in 0..tangle.shapes.len() {
        let record = tangle.record(draft, tangle.shapes[place]);
        let known = Known {
            nodes: 250,
            ..Known::default()
        };
        draft.push_type(record, known);
    }
    for _ in 0..draft.random.between(1, 3) {
        let ty = tangle.any(draft) - 1;
        draft.variable_of(ty);
    }
}

/// Types from `first` on with these shapes, some of them still to be made.
struct Tangle {
    first: u32,
    shapes: Vec<u32>,
}

impl Tangle {
    /// A link to any of the types.
    fn any(&self, draft: &mut Draft) -> u32 {
        Draft::link(self.first + draft.random.below(self.shapes.len() as u32))
    }

    /// A link to one of the types of the shape, or to any.
    fn of_shape(&self, draft: &mut Draft, shape: u32) -> u32 {
        let alike: Vec<u32> = (0..self.shapes.len() as u32)
            .filter(|place| self.shapes[*place as usize] == shape)
            .collect();
        match alike.is_empty() || draft.random.percent(10) {
            true => self.any(draft),
            false => Draft::link(self.first + draft.random.pick(&alike)),
        }
    }

    /// A type record of the shape that names other types of the tangle.
    fn record(&self, draft: &mut Draft, shape: u32) -> [u32; 11] {
        let mut record = plain(shape);
        match draft.form(shape).clone() {
            Form::Structure(fields) if draft.random.percent(70) => {
                let elements: Vec<Vec<u32>> = fields
                    .iter()
                    .map(|[name, shape, _]| {
                        let named = self.of_shape(draft, *shape);
                        let initializer = self.initializer(draft, *shape, named);
                        vec![*name, initializer]
                    })
                    .collect();
                let (first, count) = draft.run(ELEMENTS, &elements);
                record[DECLARATION] = 5;
                record[RUN] = first;
                record[RUN + 1] = count;
            }
            Form::Array { element, .. } if draft.random.percent(80) => {
                record[ELEMENT] = self.of_shape(draft, element);
                if draft.random.percent(60) {
                    record[DECLARATION] = 4;
                    let named = self.of_shape(draft, shape);
                    record[NAMED] = draft.random.pick(&[INLINE, INLINE, named]);
                }
            }
            Form::Block(_) => self.block(draft, &mut record),
            _ => match draft.random.below(4) {
                0 => record[ALIAS_BASE] = self.of_shape(draft, shape),
                1 => {
                    record[DECLARATION] = 2;
                    record[NAMED] = self.of_shape(draft, shape);
                    if draft.random.percent(60) {
                        let value = draft.integer(5);
                        record[START] = Draft::link(value);
                    }
                }
                _ => {
                    let named = self.of_shape(draft, shape);
                    let initializer = self.initializer(draft, shape, named);
                    record[DECLARATION] = 1;
                    record[START] = Draft::link(initializer);
                    if draft.random.percent(40) {
                        record[ALIAS_BASE] = named;
                    }
                }
            },
        }
        record
    }

    /// An initializer without a value, or with one in some cases.
    fn initializer(&self, draft: &mut Draft, shape: u32, named: u32) -> u32 {
        match draft.form(shape).clone() {
            Form::Sized(..) if draft.random.percent(30) => {
                let constant = draft.constant_for(shape);
                draft.initializer(with_value(3, named, Draft::link(constant)))
            }
            Form::Structure(_) => draft.initializer(bare(8, named)),
            _ => draft.initializer(bare(3, named)),
        }
    }

    /// The variables and the record of a block.
    fn block(&self, draft: &mut Draft, record: &mut [u32; 11]) {
        let mut variables = Vec::new();
        let mut fields = Vec::new();
        for name in 1..=draft.random.between(1, 2) {
            let link = self.any(draft);
            let kind = draft.random.pick(&[0, 3, 7, 8, 9, 11]);
            let initializer = draft.initializer(bare(kind, link));
            variables.push(vec![name, draft.random.pick(&[0, 1, 4]), link, initializer]);
            fields.push(vec![name, self.any(draft), 3]);
        }
        if draft.random.percent(70) {
            let (first, count) = draft.run(VARIABLES, &variables);
            record[DECLARATION] = 9;
            record[RUN] = first;
            record[RUN + 1] = count;
        }
        let (first, count) = draft.run(BLOCK_FIELDS, &fields);
        record[BLOCK] = first;
        record[BLOCK + 1] = count;
    }
}

/// A subrange that names its alias: with a start value the one gives it,
/// and the order of the two decides what the other gives.
pub fn subrange_circles(draft: &mut Draft) {
    let base = draft.integer_shape();
    let shape = draft.shape(Form::Subrange {
        base,
        least: 1,
        greatest: 9,
    });
    let first = draft.types();
    let value = draft.random.pick(&[5, 5, 9, 10]);
    let mut subrange = plain(shape);
    subrange[DECLARATION] = 2;
    subrange[NAMED] = Draft::link(first + 1);
    if draft.random.percent(80) {
        subrange[START] = Draft::link(draft.integer(value));
    }
    let mut alias = plain(shape);
    let kind = draft.random.pick(&[2, 3]);
    let own = match draft.random.percent(30) {
        true => Draft::link(draft.integer(7)),
        false => 0,
    };
    let initializer = draft.initializer(with_value(kind, Draft::link(first), own));
    alias[DECLARATION] = 1;
    alias[START] = Draft::link(initializer);
    draft.push_type(subrange, Known::default());
    draft.push_type(alias, Known::default());
    for place in 0..2 {
        let kind = draft.random.pick(&[2, 3]);
        draft.bare_variable(first + place, kind);
    }
}

/// Block types whose alias bases run in a circle without a record on it.
pub fn alias_base_circles(draft: &mut Draft) {
    let name = draft.block_name();
    let shape = draft.shape(Form::Block(name));
    let count = draft.random.between(1, 3);
    let first = draft.types();
    let part = match draft.random.percent(30) {
        true => Some(draft.random.below(count)),
        false => None,
    };
    for place in 0..count {
        let mut record = plain(shape);
        record[ALIAS_BASE] = Draft::link(first + (place + 1) % count);
        // One with a record ends the search.
        if part == Some(place) {
            let (start, fields) = draft.run(BLOCK_FIELDS, &[vec![1, 0, 3]]);
            record[BLOCK] = start;
            record[BLOCK + 1] = fields;
        }
        if draft.random.percent(40) {
            record[DECLARATION] = 8;
        }
        draft.push_type(record, Known::default());
    }
    for place in 0..count {
        draft.bare_variable(first + place, 7);
    }
    // A declared block in the circle has a default, and its members are
    // looked up along the circle.
    if draft.random.percent(50) {
        let mut record = plain(shape);
        record[ALIAS_BASE] = Draft::link(first);
        record[DECLARATION] = 9;
        let ty = draft.push_type(record, Known::default());
        draft.variable_of(ty);
    }
}

/// Undeclared aliases of a declared structure, more of them than there are
/// declared types: the search for a field's declaration gives up.
pub fn long_alias_chains(draft: &mut Draft) {
    let leaf = draft.number_shape();
    let named = draft.type_of(leaf);
    let alias = draft.alias_of(named);
    let shape = draft.structure_shape(&[leaf]);
    let Form::Structure(fields) = draft.form(shape).clone() else {
        return;
    };
    let initializer = draft.initializer(bare(3, Draft::link(alias)));
    let run = draft.run(ELEMENTS, &[vec![fields[0][0], initializer]]);
    let record = with_run(shape, 5, run);
    let mut known = Known::default();
    known.fields.push((fields[0][0], Some(alias)));
    let mut ty = draft.push_type(record, known);
    for _ in 0..draft.random.between(2, 7) {
        let mut record = plain(shape);
        record[ALIAS_BASE] = Draft::link(ty);
        let known = draft.known_as(ty);
        ty = draft.push_type(record, known);
    }
    // A late bound declaration asks for the fields of the shape.
    if draft.random.percent(60) {
        let mut record = plain(shape);
        record[ALIAS_BASE] = Draft::link(ty);
        record[DECLARATION] = 8;
        let known = draft.known_as(ty);
        ty = draft.push_type(record, known);
    }
    draft.bare_variable(ty, 8);
    draft.variable_of(ty);
}
