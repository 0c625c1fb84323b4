//! A file as lists of records, for programs that build or change one.

use crate::layout::{File, SECTIONS, WORDS};

/// The records of each section, each record as its words.
#[derive(Clone, Debug, Default, PartialEq, Eq)]
pub struct Records {
    pub sections: [Vec<Vec<u32>>; SECTIONS],
}

impl Records {
    /// The records of `file`.
    pub fn of(file: &File) -> Self {
        let mut records = Self::default();
        for section in 0..SECTIONS {
            for number in 0..file.count(section) {
                records.sections[section].push(file.record(section, number).to_vec());
            }
        }
        records
    }

    /// Appends `record` to `section` and gives its number.
    pub fn push(&mut self, section: usize, record: &[u32]) -> u32 {
        assert_eq!(record.len(), WORDS[section], "wrong number of words");
        self.sections[section].push(record.to_vec());
        self.count(section) - 1
    }

    /// How many records `section` has.
    pub fn count(&self, section: usize) -> u32 {
        self.sections[section].len() as u32
    }

    /// The file's words: each section's records after their count.
    pub fn words(&self) -> Vec<u32> {
        let mut words = Vec::new();
        for section in &self.sections {
            words.push(section.len() as u32);
            for record in section {
                words.extend_from_slice(record);
            }
        }
        words
    }
}
