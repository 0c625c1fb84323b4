//! Where each section of a declaration file stands (document 01, "Sections,
//! their makers and readers"): fourteen sections in order, each after its
//! count, each record of a fixed number of words.

pub const SETTINGS: usize = 0;
pub const SHAPES: usize = 1;
pub const MEMBERS: usize = 2;
pub const SHAPE_FIELDS: usize = 3;
pub const DIMENSIONS: usize = 4;
pub const TYPES: usize = 5;
pub const BLOCK_FIELDS: usize = 6;
pub const ELEMENTS: usize = 7;
pub const VARIABLES: usize = 8;
pub const INITIALIZERS: usize = 9;
pub const ENTRIES: usize = 10;
pub const EXPRESSIONS: usize = 11;
pub const CONSTANTS: usize = 12;
pub const CHARACTERS: usize = 13;

/// How many sections a file has.
pub const SECTIONS: usize = 14;

/// The sections' names, in the order of the file.
pub const NAMES: [&str; SECTIONS] = [
    "settings",
    "shapes",
    "members",
    "shape fields",
    "dimensions",
    "types",
    "block fields",
    "elements",
    "variables",
    "initializers",
    "entries",
    "expressions",
    "constants",
    "characters",
];

/// Words in a record of each section.
pub const WORDS: [usize; SECTIONS] = [1, 5, 1, 3, 2, 11, 3, 2, 4, 8, 4, 2, 5, 1];

/// The most records that each section may have.
pub const MOST: [usize; SECTIONS] = [
    1, 1024, 4096, 4096, 4096, 1024, 4096, 4096, 4096, 4096, 8192, 4096, 8192, 65536,
];

/// A named type or a first word that stands for "inline" or "no record".
pub const INLINE: u32 = u32::MAX;

/// A file whose words end exactly where its last section does.
#[derive(Clone, Copy)]
pub struct File<'a> {
    words: &'a [u32],
    /// The word behind each section's count.
    starts: [usize; SECTIONS],
    counts: [usize; SECTIONS],
}

impl<'a> File<'a> {
    /// `words` as a file; `None` where they end before or after the last
    /// section does (refusal 1). Counts are not yet held against their
    /// limits.
    pub fn open(words: &'a [u32]) -> Option<Self> {
        let mut starts = [0; SECTIONS];
        let mut counts = [0; SECTIONS];
        let mut at = 0usize;
        for section in 0..SECTIONS {
            let count = *words.get(at)? as usize;
            starts[section] = at + 1;
            counts[section] = count;
            at = (at + 1).checked_add(count.checked_mul(WORDS[section])?)?;
        }
        (at == words.len()).then_some(Self {
            words,
            starts,
            counts,
        })
    }

    /// How many records `section` has.
    pub fn count(&self, section: usize) -> usize {
        self.counts[section]
    }

    /// The words of record `number` of `section`.
    pub fn record(&self, section: usize, number: usize) -> &'a [u32] {
        assert!(number < self.counts[section], "no such record");
        let at = self.starts[section] + number * WORDS[section];
        &self.words[at..at + WORDS[section]]
    }
}
