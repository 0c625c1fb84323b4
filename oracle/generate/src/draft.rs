//! A file under construction: its records, and what the generator knows of
//! its shapes and types so that values can be fitted to them.

use crate::random::Random;
use files::layout::*;
use files::records::Records;

/// The most nodes that a type may be expected to have outside the families
/// that aim at the limit of 2,048.
pub const MOST_NODES: u64 = 300;

/// An integer as sign and 64-bit size, as a constant has it.
pub type Integer = i128;

/// What a shape is, its runs and constants listed.
#[derive(Clone, Debug, PartialEq)]
pub enum Form {
    Bool,
    /// Kinds 1 to 8: kind and bits.
    Sized(u32, u32),
    /// 1 + length or 0, then the width.
    Text(u32, u32),
    Enumeration {
        members: Vec<u32>,
        default: u32,
        underlying: u32,
    },
    /// Name, shape, `has_default`.
    Structure(Vec<[u32; 3]>),
    Array {
        element: u32,
        dimensions: Vec<(i32, i32)>,
    },
    Subrange {
        base: u32,
        least: Integer,
        greatest: Integer,
    },
    Block(u32),
    Interface(u32),
    Reference(u32),
}

/// A place as the resolver sees it: its shape and, where known, its type.
#[derive(Clone, Copy, Debug)]
pub struct Place {
    pub shape: u32,
    pub ty: Option<u32>,
}

/// What the generator knows of a type beyond its record.
#[derive(Clone, Debug, Default)]
pub struct Known {
    pub shape: u32,
    /// The fields of a structure or block with the types they name.
    pub fields: Vec<(u32, Option<u32>)>,
    pub element: Option<u32>,
    /// No tree of this type has more nodes than this.
    pub nodes: u64,
}

pub struct Draft {
    pub records: Records,
    pub random: Random,
    /// How many of 100 choices go against what fits.
    pub odd_share: u32,
    forms: Vec<Form>,
    form_nodes: Vec<u64>,
    known: Vec<Known>,
}

impl Draft {
    pub fn new(random: Random) -> Self {
        let mut draft = Self {
            records: Records::default(),
            random,
            odd_share: 0,
            forms: Vec::new(),
            form_nodes: Vec::new(),
            known: Vec::new(),
        };
        let length = draft.random.pick(&[1, 254, 254, 65_535]);
        draft.records.push(SETTINGS, &[length]);
        draft.odd_share = draft.random.pick(&[0, 5, 10, 20, 40]);
        draft
    }

    /// Whether this choice goes against what fits.
    pub fn odd(&mut self) -> bool {
        self.random.percent(self.odd_share)
    }

    /// How many words the file has so far.
    pub fn words(&self) -> usize {
        (0..SECTIONS)
            .map(|section| 1 + self.records.sections[section].len() * WORDS[section])
            .sum()
    }

    /// Whether `count` more records fit into `section`.
    pub fn has_room(&self, section: usize, count: usize) -> bool {
        self.records.sections[section].len() + count <= MOST[section]
    }

    /// The default string length.
    pub fn default_length(&self) -> u32 {
        self.records.sections[SETTINGS][0][0]
    }

    /// A link to the record `number`.
    pub fn link(number: u32) -> u32 {
        number + 1
    }

    // Shapes.

    pub fn form(&self, shape: u32) -> &Form {
        &self.forms[shape as usize]
    }

    pub fn shapes(&self) -> u32 {
        self.forms.len() as u32
    }

    pub fn shape_nodes(&self, shape: u32) -> u64 {
        self.form_nodes[shape as usize]
    }

    /// The shapes that `wanted` holds of.
    pub fn shapes_where(&self, wanted: impl Fn(&Form) -> bool) -> Vec<u32> {
        (0..self.shapes())
            .filter(|shape| wanted(self.form(*shape)))
            .collect()
    }

    /// The shape that is `form`: one already there, as no two may be alike,
    /// or a new one.
    pub fn shape(&mut self, form: Form) -> u32 {
        if let Some(number) = self.forms.iter().position(|other| *other == form) {
            return number as u32;
        }
        let record = self.shape_record(&form);
        let nodes = self.nodes_of(&form);
        self.forms.push(form);
        self.form_nodes.push(nodes);
        self.records.push(SHAPES, &record)
    }

    fn shape_record(&mut self, form: &Form) -> [u32; 5] {
        match form {
            Form::Bool => [0; 5],
            Form::Sized(kind, bits) => [*kind, *bits, 0, 0, 0],
            Form::Text(length, width) => [9, *length, *width, 0, 0],
            Form::Enumeration {
                members,
                default,
                underlying,
            } => {
                let members: Vec<_> = members.iter().map(|name| vec![*name]).collect();
                let (first, count) = self.run(MEMBERS, &members);
                [10, first, count, *default, *underlying]
            }
            Form::Structure(fields) => {
                let fields: Vec<_> = fields.iter().map(|field| field.to_vec()).collect();
                let (first, count) = self.run(SHAPE_FIELDS, &fields);
                [11, first, count, 0, 0]
            }
            Form::Array {
                element,
                dimensions,
            } => {
                let bounds: Vec<_> = dimensions
                    .iter()
                    .map(|(lower, upper)| vec![*lower as u32, *upper as u32])
                    .collect();
                let (first, count) = self.run(DIMENSIONS, &bounds);
                [12, *element, first, count, 0]
            }
            Form::Subrange {
                base,
                least,
                greatest,
            } => {
                let least = self.integer(*least);
                let greatest = self.integer(*greatest);
                [13, *base, least, greatest, 0]
            }
            Form::Block(name) => [14, *name, 0, 0, 0],
            Form::Interface(name) => [15, *name, 0, 0, 0],
            Form::Reference(target) => [16, *target, 0, 0, 0],
        }
    }

    /// How many nodes a tree of `form` has when its parts are of their own
    /// shapes.
    fn nodes_of(&self, form: &Form) -> u64 {
        match form {
            Form::Structure(fields) => {
                1 + fields
                    .iter()
                    .map(|field| self.shape_nodes(field[1]))
                    .sum::<u64>()
            }
            Form::Array {
                element,
                dimensions,
            } => 1 + elements(dimensions) * self.shape_nodes(*element),
            _ => 1,
        }
    }

    // Runs.

    /// `records` one after another in `section`: where they already stand,
    /// in some of the cases, or at the end.
    pub fn run(&mut self, section: usize, records: &[Vec<u32>]) -> (u32, u32) {
        let count = records.len() as u32;
        if records.is_empty() {
            let most = self.records.count(section);
            return (self.random.below(most + 1), 0);
        }
        if self.random.percent(50) {
            let there = self.records.sections[section]
                .windows(records.len())
                .position(|window| window == records);
            if let Some(first) = there {
                return (first as u32, count);
            }
        }
        let first = self.records.count(section);
        for record in records {
            self.records.push(section, record);
        }
        (first, count)
    }

    /// `record` in `section`: where it already stands, in most cases, or at
    /// the end.
    pub fn single(&mut self, section: usize, record: &[u32]) -> u32 {
        if self.random.percent(80) || !self.has_room(section, 1) {
            let there = self.records.sections[section]
                .iter()
                .position(|other| other == record);
            if let Some(number) = there {
                return number as u32;
            }
        }
        self.records.push(section, record)
    }

    // Types.

    pub fn types(&self) -> u32 {
        self.known.len() as u32
    }

    pub fn known(&self, ty: u32) -> &Known {
        &self.known[ty as usize]
    }

    /// The place of a value of the type.
    pub fn place(&self, ty: u32) -> Place {
        Place {
            shape: self.known(ty).shape,
            ty: Some(ty),
        }
    }

    /// The types that `wanted` holds of.
    pub fn types_where(&self, wanted: impl Fn(&Draft, u32) -> bool) -> Vec<u32> {
        (0..self.types()).filter(|ty| wanted(self, *ty)).collect()
    }

    /// The types of that very shape.
    pub fn types_of_shape(&self, shape: u32) -> Vec<u32> {
        self.types_where(|draft, ty| draft.known(ty).shape == shape)
    }

    /// Appends a type record with what is known of it.
    pub fn push_type(&mut self, record: [u32; 11], mut known: Known) -> u32 {
        known.shape = record[0];
        known.nodes = known.nodes.max(self.shape_nodes(record[0]));
        self.known.push(known);
        self.records.push(TYPES, &record)
    }

    /// A bound on the nodes of a tree at `place`.
    pub fn place_nodes(&self, place: Place) -> u64 {
        let of_type = place.ty.map_or(0, |ty| self.known(ty).nodes);
        of_type.max(self.shape_nodes(place.shape))
    }

    /// The fields of the structure or block `place` with their places.
    pub fn fields(&self, place: Place) -> Vec<(u32, Place)> {
        let declared = |name: u32| {
            let fields = &self.known(place.ty?).fields;
            fields.iter().find(|field| field.0 == name)?.1
        };
        match self.form(place.shape) {
            Form::Structure(fields) => fields
                .iter()
                .map(|[name, shape, _]| {
                    let ty = declared(*name).filter(|ty| self.known(*ty).shape == *shape);
                    (*name, Place { shape: *shape, ty })
                })
                .collect(),
            Form::Block(_) => match place.ty {
                Some(ty) => self
                    .known(ty)
                    .fields
                    .iter()
                    .filter_map(|(name, ty)| Some((*name, self.place((*ty)?))))
                    .collect(),
                None => Vec::new(),
            },
            _ => Vec::new(),
        }
    }

    /// How many places the array `place` lists and what stands in them.
    pub fn leaves(&self, place: Place) -> (u32, Place) {
        let mut count = 1u32;
        let mut leaf = place;
        while let Form::Array {
            element,
            dimensions,
        } = self.form(leaf.shape)
        {
            count = count.saturating_mul(elements(dimensions) as u32);
            leaf = Place {
                shape: *element,
                ty: leaf
                    .ty
                    .and_then(|ty| self.known(ty).element)
                    .filter(|ty| self.known(*ty).shape == *element),
            };
        }
        (count, leaf)
    }
}

/// The number of elements that dimensions span.
pub fn elements(dimensions: &[(i32, i32)]) -> u64 {
    dimensions
        .iter()
        .map(|(lower, upper)| (i64::from(*upper) - i64::from(*lower) + 1) as u64)
        .product()
}
