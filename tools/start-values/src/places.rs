//! Places of a tree as declarations describe them: the bounds of arrays, and
//! what the parts of structures and function blocks are.

use files::layout::*;

// Kinds of shapes.
const STRUCTURE: u32 = 11;
const ARRAY: u32 = 12;

/// A shape and, where it is known, a type.
#[derive(Clone, Copy, Debug, Default)]
pub struct Place {
    shape: Option<u32>,
    ty: Option<u32>,
}

/// The number behind a link.
fn linked(link: u32) -> Option<u32> {
    match link {
        0 | INLINE => None,
        link => Some(link - 1),
    }
}

pub struct Places<'a> {
    file: File<'a>,
}

impl<'a> Places<'a> {
    pub fn of(file: File<'a>) -> Self {
        Places { file }
    }

    fn record(&self, section: usize, number: u32) -> &'a [u32] {
        self.file.record(section, number as usize)
    }

    fn of_type(&self, link: u32) -> Place {
        let ty = linked(link);
        Place {
            shape: ty.map(|ty| self.record(TYPES, ty)[0]),
            ty,
        }
    }

    pub fn of_variable(&self, number: u32) -> Place {
        self.of_type(self.record(VARIABLES, number)[2])
    }

    /// A type and its alias bases, each once.
    fn bases(&self, ty: Option<u32>) -> Vec<u32> {
        let mut found = Vec::new();
        let mut next = ty;
        while let Some(ty) = next.filter(|ty| !found.contains(ty)) {
            found.push(ty);
            next = linked(self.record(TYPES, ty)[1]);
        }
        found
    }

    /// The type that element `name` of a structure type names.
    fn element_type(&self, ty: Option<u32>, name: u32) -> Option<u32> {
        let types = self.bases(ty).into_iter().map(|ty| self.record(TYPES, ty));
        let structures = types.filter(|record| record[4] == 5);
        let mut elements = structures.flat_map(|record| (0..record[8]).map(move |place| record[7] + place));
        let element = elements.find(|element| self.record(ELEMENTS, *element)[0] == name)?;
        let initializer = self.record(ELEMENTS, element)[1];
        linked(self.record(INITIALIZERS, initializer)[1])
    }

    /// The field `name` of a structure's shape.
    fn structure_field(&self, shape: u32, name: u32) -> Option<u32> {
        let record = self.record(SHAPES, shape);
        if record[0] != STRUCTURE {
            return None;
        }
        let mut fields = (0..record[2]).map(|place| self.record(SHAPE_FIELDS, record[1] + place));
        fields.find(|field| field[0] == name).map(|field| field[1])
    }

    /// The type of the block field `name`.
    fn block_field(&self, ty: Option<u32>, name: u32) -> Option<u32> {
        let types = self.bases(ty).into_iter().map(|ty| self.record(TYPES, ty));
        let mut fields = types.flat_map(|record| (0..record[10]).map(move |place| record[9] + place));
        let field = fields.find(|field| self.record(BLOCK_FIELDS, *field)[0] == name)?;
        linked(self.record(BLOCK_FIELDS, field)[1])
    }

    /// The part `name` of a structure or a function block.
    pub fn part(&self, place: Place, name: u32) -> Place {
        if let Some(shape) = place.shape.and_then(|shape| self.structure_field(shape, name)) {
            let ty = self.element_type(place.ty, name);
            let ty = ty.filter(|ty| self.record(TYPES, *ty)[0] == shape);
            return Place {
                shape: Some(shape),
                ty,
            };
        }
        match self.block_field(place.ty, name) {
            Some(ty) => self.of_type(ty + 1),
            None => Place::default(),
        }
    }

    /// The bounds of an array, those of an array in an array behind them, and
    /// the place of each of its parts.
    pub fn array(&self, place: Place) -> (Vec<Vec<[i32; 2]>>, Place) {
        let mut bounds = Vec::new();
        let mut place = place;
        while let Some(shape) = place.shape.filter(|shape| self.record(SHAPES, *shape)[0] == ARRAY) {
            let record = self.record(SHAPES, shape);
            let dimensions = (0..record[3]).map(|at| self.record(DIMENSIONS, record[2] + at));
            bounds.push(dimensions.map(|bounds| [bounds[0] as i32, bounds[1] as i32]).collect());
            let elements = self.bases(place.ty).into_iter().filter_map(|ty| linked(self.record(TYPES, ty)[2]));
            let ty = elements.into_iter().find(|ty| self.record(TYPES, *ty)[0] == record[1]);
            place = Place {
                shape: Some(record[1]),
                ty,
            };
        }
        (bounds, place)
    }
}

/// The indices of part `number` of an array of so many parts, as they are
/// written behind its name. The last index runs first. Where the bounds do not
/// give so many parts, the part's own number.
pub fn indices(bounds: &[Vec<[i32; 2]>], parts: u64, number: u64) -> String {
    let extent = |[low, high]: &[i32; 2]| (i64::from(*high) - i64::from(*low) + 1) as u64;
    let total = bounds.iter().flatten().try_fold(1u64, |product, bounds| product.checked_mul(extent(bounds)));
    if bounds.is_empty() || total != Some(parts) {
        return format!("[part {number}]");
    }
    let mut rest = number;
    let mut text = String::new();
    for dimensions in bounds.iter().rev() {
        let mut written = Vec::new();
        for bounds in dimensions.iter().rev() {
            written.push((i64::from(bounds[0]) + (rest % extent(bounds)) as i64).to_string());
            rest /= extent(bounds);
        }
        written.reverse();
        text = format!("[{}]{text}", written.join(","));
    }
    text
}

#[cfg(test)]
mod tests;
