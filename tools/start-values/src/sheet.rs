//! The variables' lines of a sheet that has passed its check.

use files::layout::{File, TYPES, VARIABLES};

use crate::values::Node;

/// What a variable starts with.
pub enum Start {
    Tree(Vec<Node>),
    None,
    TooLarge,
}

/// Reads words one behind the other.
struct Reader<'a> {
    words: std::slice::Iter<'a, u32>,
}

impl Reader<'_> {
    fn word(&mut self) -> u32 {
        *self.words.next().expect("the sheet has passed its check")
    }

    fn node(&mut self) -> Node {
        std::array::from_fn(|_| self.word())
    }

    /// State, count and nodes.
    fn start(&mut self) -> Start {
        let state = self.word();
        let count = self.word();
        let nodes = (0..count).map(|_| self.node()).collect();
        match state {
            0 => Start::Tree(nodes),
            1 => Start::None,
            _ => Start::TooLarge,
        }
    }
}

/// What each variable starts with, by a sheet that has passed its check.
pub fn starts(file: &File, sheet: &[u32]) -> Vec<Start> {
    let mut reader = Reader { words: sheet.iter() };
    reader.word();
    for _ in 0..file.count(TYPES) {
        // The rank stands before a type's line.
        reader.word();
        reader.start();
    }
    reader.word();
    (0..file.count(VARIABLES)).map(|_| reader.start()).collect()
}
