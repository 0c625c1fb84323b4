//! Builds declaration files by hand, record by record, and runs programs.
#![allow(dead_code)] // Each test program uses a part of this.

use std::io::Write;
use std::process::{Command, Output, Stdio};

use answers::{Answers, Completed, Node};
use files::frames;
use files::layout::*;
use files::records::Records;
use files::verdict::verdict;
use oracle::outcome::{outcome, Outcome};

/// No block record.
pub const NO_BLOCK: [u32; 2] = [INLINE, 0];

/// Shapes.
pub const BOOL: [u32; 5] = [0, 0, 0, 0, 0];
pub const SINT: [u32; 5] = [1, 8, 0, 0, 0];
pub const INT: [u32; 5] = [1, 16, 0, 0, 0];
pub const REAL: [u32; 5] = [3, 32, 0, 0, 0];
pub const LREAL: [u32; 5] = [3, 64, 0, 0, 0];
pub const TIME: [u32; 5] = [5, 32, 0, 0, 0];

/// A file under construction.
pub struct Draft {
    records: Records,
}

impl Draft {
    /// A file without records but for a default string length of 254.
    pub fn new() -> Self {
        Draft::with_settings(254)
    }

    pub fn with_settings(length: u32) -> Self {
        let mut records = Records::default();
        records.push(SETTINGS, &[length]);
        Draft { records }
    }

    /// Appends `record` to `section` and gives its number.
    pub fn push(&mut self, section: usize, record: &[u32]) -> u32 {
        self.records.push(section, record)
    }

    pub fn shape(&mut self, shape: [u32; 5]) -> u32 {
        self.push(SHAPES, &shape)
    }

    /// An undeclared type of a new shape; gives its link.
    pub fn plain(&mut self, shape: [u32; 5]) -> u32 {
        let shape = self.shape(shape);
        self.undeclared(shape)
    }

    /// An undeclared type of shape number `shape`; gives its link.
    pub fn undeclared(&mut self, shape: u32) -> u32 {
        self.type_of(shape, [0; 3], [0; 5])
    }

    /// A type without block record: `links` to alias base, element and
    /// referenced type; declaration, named type, start value and run. Gives
    /// its link.
    pub fn type_of(&mut self, shape: u32, links: [u32; 3], declared: [u32; 5]) -> u32 {
        let record = [&[shape][..], &links, &declared, &NO_BLOCK].concat();
        self.push(TYPES, &record) + 1
    }

    pub fn constant(&mut self, words: [u32; 5]) -> u32 {
        self.push(CONSTANTS, &words)
    }

    pub fn integer(&mut self, value: i128) -> u32 {
        self.sized(1, value)
    }

    /// A constant of `kind` and the size and sign of `value`.
    pub fn sized(&mut self, kind: u32, value: i128) -> u32 {
        let size = value.unsigned_abs() as u64;
        self.constant([
            kind,
            u32::from(value < 0),
            size as u32,
            (size >> 32) as u32,
            0,
        ])
    }

    /// A narrow string.
    pub fn string(&mut self, characters: &str) -> u32 {
        let first = self.records.count(CHARACTERS);
        for character in characters.chars() {
            self.push(CHARACTERS, &[character as u32]);
        }
        self.constant([8, 0, first, characters.len() as u32, 0])
    }

    pub fn entry(&mut self, words: [u32; 4]) -> u32 {
        self.push(ENTRIES, &words)
    }

    /// A nameless entry with the constant `number`.
    pub fn constant_entry(&mut self, number: u32) -> u32 {
        self.entry([0, 0, number, 0])
    }

    pub fn initializer(&mut self, words: [u32; 8]) -> u32 {
        self.push(INITIALIZERS, &words)
    }

    /// A variable of kind `Var` with name 1.
    pub fn variable(&mut self, type_link: u32, initializer: [u32; 8]) -> u32 {
        let initializer = self.initializer(initializer);
        self.push(VARIABLES, &[1, 4, type_link, initializer])
    }

    pub fn words(&self) -> Vec<u32> {
        self.records.words()
    }

    /// What the Rust answers. The file must meet no refusal.
    pub fn answers(&self) -> Answers {
        assert_eq!(verdict(&self.words()), 0);
        match outcome(&self.words()) {
            Outcome::Answered(answers) => answers,
            other => panic!("{}", other.lines()),
        }
    }
}

/// An initializer of kind 3 with a constant, or without one for `None`.
pub fn simple(type_link: u32, constant: Option<u32>) -> [u32; 8] {
    let value = constant.map_or(0, |number| number + 1);
    [3, type_link, 0, value, 0, 0, 0, 0]
}

/// The node of the integer `value`.
pub fn integer(value: i64) -> Node {
    let size = value.unsigned_abs();
    [
        0,
        1,
        u32::from(value < 0),
        size as u32,
        (size >> 32) as u32,
        0,
    ]
}

/// The node of the real `value`.
pub fn real(value: f64) -> Node {
    let bits = value.to_bits();
    [0, 3, 0, bits as u32, (bits >> 32) as u32, 0]
}

/// The nodes of an array of integers.
pub fn integers(values: &[i64]) -> Vec<Node> {
    let head = [0, 13, 0, values.len() as u32, 0, 0];
    let parts = values.iter().map(|value| integer(*value));
    std::iter::once(head).chain(parts).collect()
}

pub fn completed(kind: u32, tree: &[Node]) -> Option<Completed> {
    let tree = tree.to_vec();
    Some(Completed { kind, tree })
}

/// What the program at `path` gives for `input`.
pub fn run_program(path: &str, arguments: &[&str], input: &[u8]) -> Output {
    let mut child = Command::new(path)
        .args(arguments)
        .stdin(Stdio::piped())
        .stdout(Stdio::piped())
        .stderr(Stdio::piped())
        .spawn()
        .expect("the program starts");
    let mut pipe = child.stdin.take().expect("it is piped");
    pipe.write_all(input).expect("the program reads its input");
    drop(pipe);
    child.wait_with_output().expect("the program ends")
}

pub fn framed(files: &[Vec<u32>]) -> Vec<u8> {
    let mut bytes = Vec::new();
    for words in files {
        frames::write(&mut bytes, words).expect("memory takes any bytes");
    }
    bytes
}

pub fn text(bytes: &[u8]) -> String {
    String::from_utf8(bytes.to_vec()).expect("it prints text")
}
