//! Types over shapes: declarations, alias bases, elements and named types
//! that mostly agree with the shape.

use crate::draft::{Draft, Form, Known, Place};
use crate::values::{bare, with_value};
use files::layout::*;

/// Words of a type record that says nothing: no links, no declaration, no
/// block record.
pub fn plain(shape: u32) -> [u32; 11] {
    [shape, 0, 0, 0, 0, 0, 0, 0, 0, INLINE, 0]
}

/// A simple declaration (1) with this initializer.
pub fn simple(shape: u32, initializer: u32) -> [u32; 11] {
    let mut record = plain(shape);
    record[DECLARATION] = 1;
    record[START] = Draft::link(initializer);
    record
}

/// A declaration with a run: an array's entries (4), a structure's elements
/// (5) or a block's variables (9).
pub fn with_run(shape: u32, declaration: u32, (first, count): (u32, u32)) -> [u32; 11] {
    let mut record = plain(shape);
    record[DECLARATION] = declaration;
    record[RUN] = first;
    record[RUN + 1] = count;
    record
}

// The words of a type record behind its shape.
pub const ALIAS_BASE: usize = 1;
pub const ELEMENT: usize = 2;
pub const REFERENCED: usize = 3;
pub const DECLARATION: usize = 4;
pub const NAMED: usize = 5;
pub const START: usize = 6;
pub const RUN: usize = 7;
pub const BLOCK: usize = 9;

impl Draft {
    /// A type of the shape: one that is there, or a new one.
    pub fn type_of(&mut self, shape: u32) -> u32 {
        let there = self.types_of_shape(shape);
        if !there.is_empty() && (self.random.percent(70) || !self.has_room(TYPES, 60)) {
            return self.random.pick(&there);
        }
        self.new_type(shape)
    }

    /// An undeclared type of the shape, as elementary types are.
    pub fn elementary(&mut self, shape: u32) -> u32 {
        let there = self.types_where(|draft, ty| {
            draft.known(ty).shape == shape
                && draft.records.sections[TYPES][ty as usize][DECLARATION] == 0
                && draft.records.sections[TYPES][ty as usize][ALIAS_BASE] == 0
        });
        match there.first() {
            Some(ty) => *ty,
            None => self.undeclared(shape),
        }
    }

    /// A new undeclared type of the shape with the links that belong to it.
    pub fn undeclared(&mut self, shape: u32) -> u32 {
        let mut record = plain(shape);
        let mut known = Known::default();
        self.links_of_shape(shape, &mut record, &mut known);
        self.push_type(record, known)
    }

    /// The element and referenced types that belong to the shape.
    fn links_of_shape(&mut self, shape: u32, record: &mut [u32; 11], known: &mut Known) {
        match self.form(shape).clone() {
            Form::Array { element, .. } => {
                let ty = self.type_of(element);
                if self.odd() {
                    record[ELEMENT] = self.other_link();
                } else if self.random.percent(95) {
                    record[ELEMENT] = Self::link(ty);
                }
                if let Some(ty) = record[ELEMENT].checked_sub(1) {
                    known.element = Some(ty);
                    known.nodes = self.array_nodes(shape, self.known(ty).nodes);
                }
            }
            Form::Reference(target) => {
                let ty = self.type_of(target);
                if self.random.percent(80) {
                    record[REFERENCED] = Self::link(ty);
                }
            }
            _ => {}
        }
    }

    /// A bound on the nodes of an array whose element has `nodes`.
    pub fn array_nodes(&self, shape: u32, nodes: u64) -> u64 {
        let (count, _) = self.leaves(Place { shape, ty: None });
        1 + u64::from(count).saturating_mul(nodes)
    }

    /// A new type of the shape, declared or not.
    pub fn new_type(&mut self, shape: u32) -> u32 {
        if self.odd() {
            return self.odd_type(shape);
        }
        match self.random.below(10) {
            0 | 1 => self.undeclared(shape),
            2 if !self.types_of_shape(shape).is_empty() => self.undeclared_alias(shape),
            3 | 4 => self.simple_alias(shape),
            _ => self.declared(shape),
        }
    }

    /// A base for an alias of the shape: a type of that shape in all but
    /// the odd cases.
    fn base(&mut self, shape: u32) -> u32 {
        let there = self.types_of_shape(shape);
        match there.is_empty() {
            true => self.declared_base(shape),
            false => self.random.pick(&there),
        }
    }

    fn declared_base(&mut self, shape: u32) -> u32 {
        match self.random.percent(50) {
            true => self.undeclared(shape),
            false => self.declared(shape),
        }
    }

    /// What an alias knows: its base's fields and element.
    pub fn known_as(&self, base: u32) -> Known {
        self.known(base).clone()
    }

    /// An alias that only the type environment knows.
    pub fn undeclared_alias(&mut self, shape: u32) -> u32 {
        let base = self.base(shape);
        let mut record = plain(shape);
        record[ALIAS_BASE] = Self::link(base);
        record[ELEMENT] = self.records.sections[TYPES][base as usize][ELEMENT];
        record[REFERENCED] = self.records.sections[TYPES][base as usize][REFERENCED];
        let known = self.known_as(base);
        self.push_type(record, known)
    }

    /// An alias declared with its own start value or without.
    pub fn simple_alias(&mut self, shape: u32) -> u32 {
        let base = self.base(shape);
        self.alias_of(base)
    }

    /// An alias of the type `base`.
    pub fn alias_of(&mut self, base: u32) -> u32 {
        let shape = self.known(base).shape;
        let place = self.place(base);
        let named = self.named(base);
        let mut known = self.known_as(base);
        if named > 0 {
            known.nodes = known.nodes.max(self.known(named - 1).nodes);
        }
        let initializer = self.alias_initializer(place, named);
        let mut record = plain(shape);
        record[DECLARATION] = 1;
        record[START] = Self::link(initializer);
        if self.random.percent(60) {
            record[ALIAS_BASE] = Self::link(base);
        }
        record[ELEMENT] = self.records.sections[TYPES][base as usize][ELEMENT];
        record[REFERENCED] = self.records.sections[TYPES][base as usize][REFERENCED];
        self.push_type(record, known)
    }

    /// The initializer that declares an alias: of the kind of its shape, so
    /// that the start value of the named type comes through.
    fn alias_initializer(&mut self, place: Place, named: u32) -> u32 {
        let from_base = match self.form(place.shape) {
            Form::Bool | Form::Sized(..) => 40,
            Form::Enumeration { .. } => 50,
            _ => 0,
        };
        match self.random.percent(from_base) {
            true => self.initializer(bare(3, named)),
            false => self.initializer_for(place, named),
        }
    }

    /// A type declared in the way of its shape.
    pub fn declared(&mut self, shape: u32) -> u32 {
        match self.form(shape).clone() {
            Form::Bool | Form::Sized(..) => {
                let base = self.elementary(shape);
                self.alias_of(base)
            }
            Form::Text(..) => self.declared_string(shape),
            Form::Enumeration { .. } => self.declared_plainly(shape, 7),
            Form::Structure(_) => self.declared_structure(shape),
            Form::Array { .. } => self.declared_array(shape),
            Form::Subrange { .. } => self.declared_subrange(shape),
            Form::Block(name) => {
                let there = self.types_of_shape(shape);
                match there.is_empty() {
                    true => self.new_block(name),
                    false => {
                        let base = self.random.pick(&there);
                        self.alias_of(base)
                    }
                }
            }
            Form::Interface(_) => self.undeclared(shape),
            Form::Reference(_) => self.declared_plainly(shape, 6),
        }
    }

    /// A declaration that holds no more than a name: reference (6),
    /// enumeration (7) or late bound (8).
    pub fn declared_plainly(&mut self, shape: u32, declaration: u32) -> u32 {
        let mut record = plain(shape);
        let mut known = Known::default();
        self.links_of_shape(shape, &mut record, &mut known);
        record[DECLARATION] = declaration;
        record[NAMED] = match declaration {
            6 => record[REFERENCED],
            _ => self.other_link(),
        };
        if self.odd() {
            record[NAMED] = self.other_link();
        }
        self.push_type(record, known)
    }

    pub fn declared_string(&mut self, shape: u32) -> u32 {
        let mut record = plain(shape);
        record[DECLARATION] = 3;
        if self.random.percent(70) {
            let constant = self.constant_for(shape);
            if self.records.sections[CONSTANTS][constant as usize][0] == 8 {
                record[START] = Self::link(constant);
            }
        }
        self.push_type(record, Known::default())
    }

    pub fn declared_subrange(&mut self, shape: u32) -> u32 {
        let mut record = plain(shape);
        record[DECLARATION] = 2;
        record[NAMED] = INLINE;
        let mut known = Known::default();
        if self.random.percent(60) {
            let there = self.types_of_shape(shape);
            if !there.is_empty() {
                let base = self.random.pick(&there);
                record[NAMED] = self.named(base);
                if record[NAMED] > 0 {
                    known.nodes = self.known(record[NAMED] - 1).nodes;
                }
                if self.random.percent(50) {
                    record[ALIAS_BASE] = record[NAMED];
                }
            }
        }
        if self.random.percent(60) {
            let range = self.range(shape).unwrap_or((-3, 3));
            let value = self.near(range);
            record[START] = Self::link(self.integer(value));
        }
        self.push_type(record, known)
    }

    pub fn declared_array(&mut self, shape: u32) -> u32 {
        let mut record = plain(shape);
        let mut known = Known::default();
        self.links_of_shape(shape, &mut record, &mut known);
        record[DECLARATION] = 4;
        record[NAMED] = INLINE;
        let there = self.types_of_shape(shape);
        if !there.is_empty() && self.random.percent(40) {
            let base = self.random.pick(&there);
            record[NAMED] = self.named(base);
            if record[NAMED] > 0 {
                known.nodes = known.nodes.max(self.known(record[NAMED] - 1).nodes);
            }
        }
        if self.random.percent(60) {
            // The element is known before the entries are fitted to it.
            let place = Place { shape, ty: None };
            let (_, leaf) = self.leaves(place);
            let entries = match self.form(leaf.shape) {
                Form::Block(_) => Vec::new(),
                _ => self.items_for(place),
            };
            let (first, count) = self.entries(&entries);
            record[RUN] = first;
            record[RUN + 1] = count;
        }
        self.push_type(record, known)
    }

    pub fn declared_structure(&mut self, shape: u32) -> u32 {
        let Form::Structure(fields) = self.form(shape).clone() else {
            return self.undeclared(shape);
        };
        let mut known = Known {
            nodes: 1,
            ..Known::default()
        };
        let mut elements = Vec::new();
        for [name, shape, _] in fields {
            let ty = self.type_of(shape);
            known.fields.push((name, Some(ty)));
            known.nodes += self.place_nodes(self.place(ty));
            let named = self.named(ty);
            let initializer = self.initializer_for(self.place(ty), named);
            elements.push(vec![name, initializer]);
        }
        if self.odd() {
            self.disorder(&mut elements);
        }
        let (first, count) = self.run(ELEMENTS, &elements);
        let mut record = plain(shape);
        record[DECLARATION] = 5;
        record[RUN] = first;
        record[RUN + 1] = count;
        self.push_type(record, known)
    }

    /// Elements or block fields that are not those of the shape: one left
    /// out, two the other way round, or one under another name.
    pub fn disorder(&mut self, records: &mut Vec<Vec<u32>>) {
        if records.is_empty() {
            return;
        }
        let place = self.random.below(records.len() as u32) as usize;
        match self.random.below(3) {
            0 => {
                records.remove(place);
            }
            1 => records.swap(0, place),
            _ => records[place][0] = self.field_name(),
        }
    }

    /// A function block with variables of types that are there or new.
    pub fn new_block(&mut self, name: u32) -> u32 {
        let shape = self.shape(Form::Block(name));
        let count = self.random.pick(&[0, 1, 2, 2, 3, 3, 4]);
        let types: Vec<u32> = (0..count).map(|_| self.part_type()).collect();
        self.block_of(shape, &types)
    }

    /// A type of few nodes for a part of something larger.
    pub fn part_type(&mut self) -> u32 {
        let few = self.types_where(|draft, ty| draft.known(ty).nodes <= 40);
        if !few.is_empty() && self.random.percent(60) {
            return self.random.pick(&few);
        }
        let shape = self.leaf_shape();
        self.type_of(shape)
    }

    /// A function block of the shape with a variable of each of `types`.
    pub fn block_of(&mut self, shape: u32, types: &[u32]) -> u32 {
        let mut known = Known {
            nodes: 1,
            ..Known::default()
        };
        let mut variables = Vec::new();
        let mut fields = Vec::new();
        for (place, ty) in types.iter().enumerate() {
            let name = match self.odd() {
                true => self.random.below(4),
                false => place as u32 + 1,
            };
            let kind = match self.random.percent(20) {
                true => self.random.below(6),
                false => self.random.pick(&[0, 1, 4]),
            };
            let initializer = self.variable_initializer(*ty);
            let link = self.named(*ty);
            variables.push(vec![name, kind, link, initializer]);
            known.nodes += self.known(*ty).nodes;
            // 0 Input, 1 Output, 2 InOut, 3 Internal.
            if kind != 3 && kind != 5 && name != 0 {
                fields.push(vec![name, Self::link(*ty), [0, 1, 2, 0, 3][kind as usize]]);
                if kind != 2 {
                    known.fields.push((name, Some(*ty)));
                }
            }
        }
        let (first, count) = self.run(VARIABLES, &variables);
        let mut record = plain(shape);
        record[DECLARATION] = 9;
        record[RUN] = first;
        record[RUN + 1] = count;
        self.block_record(fields, &mut record);
        self.push_type(record, known)
    }

    /// A block record that agrees with the variables in all but the odd
    /// cases.
    pub fn block_record(&mut self, mut fields: Vec<Vec<u32>>, record: &mut [u32; 11]) {
        if self.odd() {
            match self.random.below(3) {
                0 => return,
                1 => self.disorder(&mut fields),
                _ => {
                    for field in &mut fields {
                        if self.random.percent(50) {
                            field[1] = self.other_link();
                        }
                    }
                }
            }
        }
        let (first, count) = self.run(BLOCK_FIELDS, &fields);
        record[BLOCK] = first;
        record[BLOCK + 1] = count;
    }

    /// A block that is known by its record only, as standard blocks are.
    pub fn standard_block(&mut self) -> u32 {
        let name = self.block_name();
        let shape = self.shape(Form::Block(name));
        let count = self.random.between(1, 3);
        let mut known = Known {
            nodes: 1,
            ..Known::default()
        };
        let mut fields = Vec::new();
        for name in 1..=count {
            let ty = self.part_type();
            let link = self.named(ty);
            let kind = self.random.pick(&[0, 0, 1, 1, 2, 3]);
            fields.push(vec![name, link, kind]);
            known.nodes += self.known(ty).nodes;
            if kind != 2 {
                known.fields.push((name, Some(ty)));
            }
        }
        let (first, count) = self.run(BLOCK_FIELDS, &fields);
        let mut record = plain(shape);
        record[BLOCK] = first;
        record[BLOCK + 1] = count;
        self.push_type(record, known)
    }

    /// The initializer of a variable of the type.
    pub fn variable_initializer(&mut self, ty: u32) -> u32 {
        let named = self.named(ty);
        self.initializer_for(self.place(ty), named)
    }

    /// A type whose declaration has nothing to do with its shape.
    pub fn odd_type(&mut self, shape: u32) -> u32 {
        let mut record = plain(shape);
        let declaration = self.random.below(10);
        record[DECLARATION] = declaration;
        for word in [ALIAS_BASE, ELEMENT, REFERENCED] {
            if self.random.percent(40) {
                record[word] = self.other_link();
            }
        }
        if matches!(declaration, 2 | 4 | 6 | 7 | 8) {
            record[NAMED] = self.other_link();
        }
        if matches!(declaration, 2 | 4) && self.random.percent(30) {
            record[NAMED] = INLINE;
        }
        let named = self.other_link();
        match declaration {
            1 => record[START] = Self::link(self.any_initializer(named)),
            2 => {
                let value = self.any_integer();
                record[START] = Self::link(self.integer(value));
            }
            3 => record[START] = Self::link(self.string(2)),
            4 => {
                let entry = self.any_entry(0);
                let (first, count) = self.entries(&[entry]);
                record[RUN] = first;
                record[RUN + 1] = count;
            }
            5 => {
                let initializer = self.any_initializer(named);
                let element = vec![self.field_name(), initializer];
                let (first, count) = self.run(ELEMENTS, &[element]);
                record[RUN] = first;
                record[RUN + 1] = count;
            }
            9 => {
                let initializer = self.any_initializer(named);
                let variable = vec![self.field_name(), self.random.below(6), named, initializer];
                let (first, count) = self.run(VARIABLES, &[variable]);
                record[RUN] = first;
                record[RUN + 1] = count;
            }
            _ => {}
        }
        if self.random.percent(20) {
            let field = vec![self.field_name(), self.other_link(), self.random.below(4)];
            let (first, count) = self.run(BLOCK_FIELDS, &[field]);
            record[BLOCK] = first;
            record[BLOCK + 1] = count;
        }
        let known = Known {
            nodes: self.array_nodes(shape, 20).max(60),
            ..Known::default()
        };
        self.push_type(record, known)
    }

    // Variables.

    /// A variable of the type with that initializer.
    pub fn variable(&mut self, ty: u32, initializer: u32) -> u32 {
        let name = match self.random.percent(8) {
            true => 0,
            false => self.field_name(),
        };
        let kind = match self.random.percent(12) {
            true => self.random.below(6),
            false => self.random.pick(&[0, 1, 4, 5]),
        };
        let link = match self.odd() {
            true => self.random.pick(&[0, Self::link(ty)]),
            false => Self::link(ty),
        };
        self.records
            .push(VARIABLES, &[name, kind, link, initializer])
    }

    /// A variable of the type with an initializer fitted to it.
    pub fn variable_of(&mut self, ty: u32) -> u32 {
        let initializer = self.variable_initializer(ty);
        self.variable(ty, initializer)
    }

    /// A variable of the type whose initializer is of `kind` and has no
    /// value.
    pub fn bare_variable(&mut self, ty: u32, kind: u32) -> u32 {
        let named = if kind == 10 { 0 } else { Self::link(ty) };
        let initializer = self.initializer(bare(kind, named));
        self.variable(ty, initializer)
    }

    /// A variable of the type with the constant as its Simple value.
    pub fn constant_variable(&mut self, ty: u32, constant: u32) -> u32 {
        let record = with_value(3, Self::link(ty), Self::link(constant));
        let initializer = self.initializer(record);
        self.variable(ty, initializer)
    }
}
