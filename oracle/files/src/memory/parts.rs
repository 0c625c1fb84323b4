//! The nodes of a tree with how each is stored at its place.

use super::forms::{form, Form};
use super::places::{self, Place, Places, Shape};
use super::{Node, ARRAY, NULL, STRUCTURE};
use crate::layout::File;

/// No kind of shape has this number.
const NO_SHAPE: Shape = [u32::MAX; 5];

/// A node, the shape of its place and how a leaf is stored there.
#[derive(Clone, Debug)]
pub struct Part {
    pub node: Node,
    pub shape: Shape,
    pub form: Form,
}

/// Why a place cannot hold a node.
#[derive(Clone, Copy, Debug, PartialEq, Eq, PartialOrd, Ord)]
pub enum Misfit {
    /// An array's node at another place.
    NoArray,
    /// An array's node of more or fewer entries than the array has.
    ArrayLength,
    /// A structure's node at another place.
    NoStructure,
    /// A structure's parts are not its fields, in number and in order, nulls aside.
    Fields,
    /// A part that is no field, or one without a type, and no null.
    NoPlace,
    /// A reference or an expression.
    Expression,
    /// A constant that conversion would not return unchanged.
    Converted,
    /// A number outside the bounds of the place.
    Bounds,
    /// A real at REAL that is not a number.
    NotANumber,
    /// A string of another width, or longer than its place.
    Text,
    /// No member of the enumeration.
    Member,
    /// A leaf where none is stored.
    Nothing,
}

impl Part {
    /// How many bytes a tree has here, where it is written or read.
    pub fn size(&self) -> usize {
        match (&self.form, self.node[1]) {
            (_, ARRAY | STRUCTURE) => 0,
            (_, NULL) => 4,
            (Form::Bool, _) => 1,
            (Form::Number(number), _) => number.bytes,
            (Form::Real | Form::Reference, _) => 4,
            (Form::LongReal, _) => 8,
            (Form::Text(most, width), _) => 4 + usize::from(*most) * (1 + *width as usize),
            (Form::Enumeration(_), _) => 2,
            (Form::Nothing, _) => 0,
        }
    }
}

struct Walk<'a, 'n> {
    file: File<'a>,
    places: Places<'a>,
    nodes: std::slice::Iter<'n, Node>,
    parts: Vec<Part>,
}

impl Walk<'_, '_> {
    /// The tree that comes next stands at `place`.
    fn tree(&mut self, place: &Place) -> Result<(), Misfit> {
        let node = *self.nodes.next().expect("the tree is whole");
        self.parts.push(Part {
            node,
            shape: place.shape,
            form: form(&self.file, &place.shape),
        });
        match node[1] {
            ARRAY => self.array(place, node[3]),
            STRUCTURE => self.structure(place, node[3]),
            _ => Ok(()),
        }
    }

    /// Entries are listed flat, each at the innermost element's place.
    fn array(&mut self, place: &Place, count: u32) -> Result<(), Misfit> {
        if place.shape[0] != places::ARRAY {
            return Err(Misfit::NoArray);
        }
        let (leaf, elements) = self.places.innermost(place);
        if elements != u64::from(count) {
            return Err(Misfit::ArrayLength);
        }
        (0..count).try_for_each(|_| self.tree(&leaf))
    }

    fn structure(&mut self, place: &Place, count: u32) -> Result<(), Misfit> {
        let expected = match place.shape[0] {
            places::STRUCTURE => Some(self.places.field_names(place)),
            places::BLOCK => None,
            _ => return Err(Misfit::NoStructure),
        };
        if expected.as_ref().is_some_and(|names| names.len() != count as usize) {
            return Err(Misfit::Fields);
        }
        for number in 0..count as usize {
            let part = self.nodes.as_slice().first().expect("the tree is whole");
            let [name, kind, ..] = *part;
            let is_field = expected.as_ref().is_none_or(|names| names[number] == name);
            let field = is_field.then(|| self.places.field(place, name)).flatten();
            match field {
                Some(field) => self.tree(&field)?,
                None if kind == NULL => self.placeless(),
                None if is_field => return Err(Misfit::NoPlace),
                None => return Err(Misfit::Fields),
            }
        }
        Ok(())
    }

    /// Any null is stored, also one that has no place.
    fn placeless(&mut self) {
        let node = *self.nodes.next().expect("the tree is whole");
        self.parts.push(Part {
            node,
            shape: NO_SHAPE,
            form: Form::Nothing,
        });
    }
}

/// The parts of a variable's tree, in the order of its nodes.
pub fn parts(file: &File, variable: u32, tree: &[Node]) -> Result<Vec<Part>, Misfit> {
    let mut walk = Walk {
        file: *file,
        places: Places::of(*file),
        nodes: tree.iter(),
        parts: Vec::new(),
    };
    let place = walk.places.of_variable(variable).ok_or(Misfit::NoPlace)?;
    walk.tree(&place)?;
    Ok(walk.parts)
}
