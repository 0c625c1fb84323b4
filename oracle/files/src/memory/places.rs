//! Places as resolver.rs has them: what a variable, an element, a field or a
//! block's field is by its declarations.

use crate::layout::*;

/// The words of a shape record. A string variable's shape need not stand in
/// the file.
pub type Shape = [u32; 5];

// Kinds of shapes.
const TEXT: u32 = 9;
const ENUMERATION: u32 = 10;
pub const STRUCTURE: u32 = 11;
pub const ARRAY: u32 = 12;
const SUBRANGE: u32 = 13;
pub const BLOCK: u32 = 14;
const REFERENCE: u32 = 16;

/// A structure's declaration of a type.
const DECLARED_STRUCTURE: u32 = 5;

/// A shape, its type and the type of its elements, where they are known.
#[derive(Clone, Copy, Debug)]
pub struct Place {
    pub shape: Shape,
    ty: Option<u32>,
    element: Option<u32>,
}

/// The number behind a link or a named type.
fn linked(link: u32) -> Option<u32> {
    match link {
        0 | INLINE => None,
        link => Some(link - 1),
    }
}

/// The integer of constant `number`.
pub fn integer(file: &File, number: u32) -> i128 {
    let record = file.record(CONSTANTS, number as usize);
    signed(record[1], record[2], record[3])
}

/// An integer of sign and size.
pub fn signed(sign: u32, low: u32, high: u32) -> i128 {
    let size = i128::from(u64::from(high) << 32 | u64::from(low));
    if sign == 1 {
        -size
    } else {
        size
    }
}

/// Places in a file.
pub struct Places<'a> {
    file: File<'a>,
    /// For each shape the lowest one that the Rust's `==` holds to be equal.
    equal: Vec<u32>,
}

/// Shapes are `==` where these numbers are the same: kind, words and lists, with
/// lower shapes by what they equal; an enumeration's members and default are not
/// compared.
fn key(file: &File, number: usize, equal: &[u32]) -> Vec<i128> {
    let record = file.record(SHAPES, number);
    let shape = |number: u32| i128::from(equal[number as usize]);
    let run = |section, first: u32, count: u32| (first..first + count).map(move |at| file.record(section, at as usize));
    let mut key = vec![i128::from(record[0])];
    match record[0] {
        ENUMERATION => key.extend(record[4].checked_sub(1).map(shape)),
        STRUCTURE => {
            for field in run(SHAPE_FIELDS, record[1], record[2]) {
                key.extend([i128::from(field[0]), shape(field[1]), i128::from(field[2])]);
            }
        }
        ARRAY => {
            key.push(shape(record[1]));
            key.extend(run(DIMENSIONS, record[2], record[3]).flatten().map(|word| i128::from(*word)));
        }
        SUBRANGE => key.extend([shape(record[1]), integer(file, record[2]), integer(file, record[3])]),
        REFERENCE => key.push(shape(record[1])),
        _ => key.extend(record[1..].iter().map(|word| i128::from(*word))),
    }
    key
}

impl<'a> Places<'a> {
    pub fn of(file: File<'a>) -> Self {
        let mut keys: Vec<Vec<i128>> = Vec::new();
        let mut equal = Vec::new();
        for number in 0..file.count(SHAPES) {
            let key = key(&file, number, &equal);
            let first = keys.iter().position(|other| *other == key);
            equal.push(first.unwrap_or(number) as u32);
            keys.push(key);
        }
        Places { file, equal }
    }

    fn record(&self, section: usize, number: u32) -> &'a [u32] {
        self.file.record(section, number as usize)
    }

    fn run(&self, section: usize, first: u32, count: u32) -> impl Iterator<Item = &'a [u32]> + '_ {
        (first..first + count).map(move |number| self.record(section, number))
    }

    /// The words of shape `number`.
    fn shape(&self, number: u32) -> Shape {
        self.record(SHAPES, number).try_into().expect("a shape has five words")
    }

    /// `place_of`.
    fn of_type(&self, ty: u32) -> Place {
        let record = self.record(TYPES, ty);
        Place {
            shape: self.shape(record[0]),
            ty: Some(ty),
            element: linked(record[2]),
        }
    }

    /// `declaration_place`.
    pub fn of_variable(&self, variable: u32) -> Option<Place> {
        let record = self.record(VARIABLES, variable);
        let initializer = self.record(INITIALIZERS, record[3]);
        if initializer[0] == 4 {
            return Some(Place {
                shape: [TEXT, initializer[6], initializer[7], 0, 0],
                ty: None,
                element: None,
            });
        }
        linked(record[2]).map(|ty| self.of_type(ty))
    }

    /// `typed_place`: the type is kept where its shape is `==` to this one.
    fn typed(&self, shape: u32, ty: Option<u32>, element: Option<u32>) -> Place {
        let equal = |number: u32| self.equal[number as usize];
        let ty = ty.filter(|ty| equal(self.record(TYPES, *ty)[0]) == equal(shape));
        Place {
            shape: self.shape(shape),
            ty,
            element: element.or_else(|| self.element_type(ty)),
        }
    }

    fn element_type(&self, ty: Option<u32>) -> Option<u32> {
        linked(self.record(TYPES, ty?)[2])
    }

    /// `element_place`, of an array.
    fn element(&self, place: &Place) -> Place {
        let ty = place.element.or_else(|| self.element_type(place.ty));
        self.typed(place.shape[1], ty, None)
    }

    /// The innermost element of an array, and how many of them it and the arrays
    /// in it have together.
    pub fn innermost(&self, place: &Place) -> (Place, u64) {
        let mut leaf = *place;
        let mut count = 1u64;
        while leaf.shape[0] == ARRAY {
            for bounds in self.run(DIMENSIONS, leaf.shape[2], leaf.shape[3]) {
                let extent = i64::from(bounds[1] as i32) - i64::from(bounds[0] as i32) + 1;
                count = count.saturating_mul(extent as u64);
            }
            leaf = self.element(&leaf);
        }
        (leaf, count)
    }

    /// The names of a structure's fields.
    pub fn field_names(&self, place: &Place) -> Vec<u32> {
        self.run(SHAPE_FIELDS, place.shape[1], place.shape[2]).map(|field| field[0]).collect()
    }

    /// `field_place`, of a structure or a function block.
    pub fn field(&self, place: &Place, name: u32) -> Option<Place> {
        if place.shape[0] == BLOCK {
            return self.block_field(place.ty?, name).map(|ty| self.of_type(ty));
        }
        let mut fields = self.run(SHAPE_FIELDS, place.shape[1], place.shape[2]);
        let shape = fields.find(|field| field[0] == name)?[1];
        let declared = place.ty.and_then(|ty| self.field_declaration(ty, name));
        let (ty, element) = declared.map_or((None, None), |initializer| self.declared_types(initializer));
        Some(self.typed(shape, ty, element))
    }

    /// The type of a block's field, by the first block record along the alias
    /// bases.
    fn block_field(&self, ty: u32, name: u32) -> Option<u32> {
        let mut ty = ty;
        for _ in 0..self.file.count(TYPES) {
            let record = self.record(TYPES, ty);
            if record[9] != INLINE {
                let mut fields = self.run(BLOCK_FIELDS, record[9], record[10]);
                return linked(fields.find(|field| field[0] == name)?[1]);
            }
            ty = linked(record[1])?;
        }
        None
    }

    /// `field_declaration`: the initializer of a field by the declaration of its
    /// structure, after at most as many aliases as there are declarations.
    fn field_declaration(&self, ty: u32, name: u32) -> Option<u32> {
        let types = (0..self.file.count(TYPES)).map(|number| self.file.record(TYPES, number)[4]);
        let declarations = types.filter(|declaration| (1..=8).contains(declaration)).count();
        let mut ty = ty;
        for _ in 0..=declarations {
            let record = self.record(TYPES, ty);
            if record[4] == DECLARED_STRUCTURE {
                let mut elements = self.run(ELEMENTS, record[7], record[8]);
                return elements.find(|element| element[0] == name).map(|element| element[1]);
            }
            ty = self.alias_target(record)?;
        }
        None
    }

    /// `alias_target`: the alias base, or what a simple declaration with a member
    /// list names.
    fn alias_target(&self, record: &[u32]) -> Option<u32> {
        let base = linked(record[1]);
        if base.is_some() || record[4] != 1 {
            return base;
        }
        let initializer = self.record(INITIALIZERS, record[6] - 1);
        match initializer[0] {
            7 | 8 => linked(initializer[1]),
            _ => None,
        }
    }

    /// `declared_ids`: the named type, or the element type of an array spelled in
    /// place.
    fn declared_types(&self, initializer: u32) -> (Option<u32>, Option<u32>) {
        let record = self.record(INITIALIZERS, initializer);
        match (record[0], record[1]) {
            (9, INLINE) => (None, linked(record[2])),
            (_, named) => (linked(named), None),
        }
    }
}
