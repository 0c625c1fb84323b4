//! Random shapes, built bottom up.

use crate::draft::{elements, Draft, Form, MOST_NODES};
use files::layout::*;

/// The names of fields and block variables are from 1 to this, few enough
/// that they meet often.
const MOST_FIELD_NAMES: u32 = 8;

/// The names of enumeration members begin here.
const FIRST_MEMBER: u32 = 20;
const MEMBER_NAMES: u32 = 6;

/// The names of blocks and interfaces begin here.
const FIRST_BLOCK: u32 = 40;

impl Draft {
    pub fn field_name(&mut self) -> u32 {
        self.random.between(1, MOST_FIELD_NAMES)
    }

    pub fn member_name(&mut self) -> u32 {
        FIRST_MEMBER + self.random.below(MEMBER_NAMES)
    }

    pub fn block_name(&mut self) -> u32 {
        FIRST_BLOCK + self.random.below(200)
    }

    pub fn bits(&mut self) -> u32 {
        self.random.pick(&[8, 16, 32, 64])
    }

    /// A shape of one node that holds numbers: kinds 0 to 8.
    pub fn number_shape(&mut self) -> u32 {
        let kind = self
            .random
            .pick(&[0, 0, 1, 1, 1, 1, 2, 2, 3, 3, 4, 5, 6, 7, 8]);
        if kind == 0 {
            return self.shape(Form::Bool);
        }
        let bits = self.bits();
        self.shape(Form::Sized(kind, bits))
    }

    /// An integer or bit string shape.
    pub fn integer_shape(&mut self) -> u32 {
        let kind = self.random.pick(&[1, 1, 2, 4]);
        let bits = self.bits();
        self.shape(Form::Sized(kind, bits))
    }

    pub fn text_shape(&mut self) -> u32 {
        let length = match self.random.below(8) {
            0 | 1 => 0,
            2..=5 => self.random.between(1, 6),
            6 => self.random.pick(&[255, 256, 65_535]),
            _ => match self.odd() {
                true => self.random.pick(&[65_537, 65_538, u32::MAX]),
                false => 65_536,
            },
        };
        let width = self.random.below(2);
        self.shape(Form::Text(length, width))
    }

    pub fn enumeration_shape(&mut self) -> u32 {
        let count = match self.odd() {
            true => self.random.below(2),
            false => self.random.between(1, 4),
        };
        let members: Vec<u32> = (0..count).map(|_| self.member_name()).collect();
        let default = match count == 0 || self.odd() {
            true => self.random.pick(&[count, count + 1, u32::MAX]),
            false => self.random.below(count),
        };
        let underlying = match self.random.below(5) {
            0 => Self::link(self.integer_shape()),
            1 if self.odd() && self.shapes() > 0 => self.random.between(1, self.shapes()),
            _ => 0,
        };
        self.shape(Form::Enumeration {
            members,
            default,
            underlying,
        })
    }

    pub fn subrange_shape(&mut self) -> u32 {
        let base = self.integer_shape();
        let base = match self.odd() {
            true => self.random.below(self.shapes()),
            false => base,
        };
        let range = match self.random.percent(70) {
            true => self.range(base).unwrap_or((-9, 9)),
            false => (-20, 20),
        };
        let first = self.near(range);
        let second = self.near(range);
        let (least, greatest) = match self.odd() {
            true => (first.max(second), first.min(second)),
            false => (first.min(second), first.max(second)),
        };
        self.shape(Form::Subrange {
            base,
            least,
            greatest,
        })
    }

    /// One to three dimensions of few elements, their bounds anywhere.
    pub fn dimensions(&mut self) -> Vec<(i32, i32)> {
        let count = self.random.pick(&[1, 1, 1, 1, 2, 2, 3]);
        let longest = if count == 1 { 5 } else { 3 };
        (0..count)
            .map(|_| {
                let length = self.random.between(1, longest) as i32;
                let lower = match self.random.below(10) {
                    0 => i32::MIN,
                    1 => i32::MAX - length + 1,
                    2 | 3 => -(self.random.below(3) as i32),
                    _ => self.random.below(3) as i32,
                };
                (lower, lower + (length - 1))
            })
            .collect()
    }

    pub fn array_shape(&mut self, element: u32) -> u32 {
        let dimensions = self.dimensions();
        self.array_of(element, dimensions)
    }

    pub fn array_of(&mut self, element: u32, dimensions: Vec<(i32, i32)>) -> u32 {
        self.shape(Form::Array {
            element,
            dimensions,
        })
    }

    /// A structure shape with fields of these shapes, its names different
    /// in all but the odd cases.
    pub fn structure_shape(&mut self, shapes: &[u32]) -> u32 {
        let mut names: Vec<u32> = (1..=MOST_FIELD_NAMES).collect();
        self.random.shuffle(&mut names);
        let fields = shapes
            .iter()
            .enumerate()
            .map(|(place, shape)| {
                let name = match self.odd() {
                    true => self.field_name(),
                    false => names[place % names.len()],
                };
                [name, *shape, self.random.below(2)]
            })
            .collect();
        self.shape(Form::Structure(fields))
    }

    pub fn interface_shape(&mut self) -> u32 {
        let name = self.block_name();
        self.shape(Form::Interface(name))
    }

    /// A shape of one node, whatever its kind.
    pub fn leaf_shape(&mut self) -> u32 {
        match self.random.weighted(&[60, 12, 10, 8, 6, 1]) {
            0 => self.number_shape(),
            1 => self.text_shape(),
            2 => self.enumeration_shape(),
            3 => self.subrange_shape(),
            4 => {
                let target = self.number_shape();
                self.shape(Form::Reference(target))
            }
            _ => match self.odd() || self.random.percent(20) {
                true => self.interface_shape(),
                false => self.number_shape(),
            },
        }
    }

    /// A shape of at most `depth` levels below its top.
    pub fn any_shape(&mut self, depth: u32) -> u32 {
        if self.shapes() > 0 && self.random.percent(35) || !self.has_room(SHAPES, 40) {
            let there = self.shapes_where(|form| !matches!(form, Form::Interface(_)));
            if !there.is_empty() {
                return self.random.pick(&there);
            }
        }
        let kind = match depth {
            0 => 0,
            _ => self.random.weighted(&[50, 25, 25]),
        };
        match kind {
            1 => {
                let element = self.any_shape(depth - 1);
                let dimensions = self.dimensions();
                if self.shape_nodes(element) * elements(&dimensions) > MOST_NODES {
                    return element;
                }
                self.array_of(element, dimensions)
            }
            2 => {
                let count = self.random.pick(&[0, 1, 2, 2, 2, 3, 3, 4]);
                let mut shapes = Vec::new();
                let mut nodes = 1;
                for _ in 0..count {
                    let shape = self.any_shape(depth - 1);
                    nodes += self.shape_nodes(shape);
                    if nodes <= MOST_NODES {
                        shapes.push(shape);
                    }
                }
                self.structure_shape(&shapes)
            }
            _ => self.leaf_shape(),
        }
    }
}
