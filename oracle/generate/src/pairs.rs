//! Shapes and constants to be paired, for the value that a constant gives a
//! place of a shape.
//!
//! A pair's question to the Rust is a variable whose type has that shape and
//! whose initializer is simple (kind 3): its value is what
//! `Resolver::constant` gives for that place, and nothing else is asked.

mod directed;
mod random;

use crate::draft::Draft;
use crate::types::plain;
use crate::values::with_value;
use files::layout::*;
use files::records::Records;

/// A file without types and variables. Its pairs are each shape with each
/// constant.
pub struct Pairs {
    records: Records,
}

impl Pairs {
    /// The file's words.
    pub fn words(&self) -> Vec<u32> {
        self.records.words()
    }

    pub fn shapes(&self) -> u32 {
        self.records.count(SHAPES)
    }

    pub fn constants(&self) -> u32 {
        self.records.count(CONSTANTS)
    }

    /// The words of a shape.
    pub fn shape(&self, number: u32) -> &[u32] {
        &self.records.sections[SHAPES][number as usize]
    }

    /// Each shape's number with each constant's.
    pub fn all(&self) -> Vec<(u32, u32)> {
        (0..self.shapes())
            .flat_map(|shape| (0..self.constants()).map(move |constant| (shape, constant)))
            .collect()
    }

    /// The file with a type for each shape and a variable for each of
    /// `pairs`, which are no more than a file has variables.
    fn asking(&self, pairs: &[(u32, u32)]) -> Vec<u32> {
        let mut records = self.records.clone();
        for shape in 0..self.shapes() {
            records.push(TYPES, &plain(shape));
        }
        for (shape, constant) in pairs {
            let ty = Draft::link(*shape);
            let simple = with_value(3, ty, Draft::link(*constant));
            let initializer = records.push(INITIALIZERS, &simple);
            records.push(VARIABLES, &[1, 4, ty, initializer]);
        }
        records.words()
    }

    /// The files that ask about all pairs, in their order.
    pub fn questions(&self) -> Vec<Vec<u32>> {
        self.all()
            .chunks(MOST[VARIABLES])
            .map(|pairs| self.asking(pairs))
            .collect()
    }
}

#[cfg(test)]
mod tests;
