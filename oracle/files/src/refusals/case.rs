//! How a case is made: an accepted file, and one change to it.

use crate::layout::SETTINGS;
use crate::records::Records;

/// A file with the refusal that document 01 gives it.
#[derive(Clone)]
pub struct Case {
    /// The first of the refusals 1 to 6 that the file meets, or 0 for none.
    pub expected: u32,
    pub words: Vec<u32>,
    /// Why, in one line.
    pub cause: String,
}

/// An accepted file, with a name for the record that its cases change.
pub struct Base {
    name: String,
    pub file: Records,
}

/// The expected verdict, the first word that changes, the words that stand
/// there instead, and what that means.
pub type Change<'a> = (u32, usize, &'a [u32], &'a str);

impl Base {
    /// A file with one setting and nothing else.
    pub fn new(name: &str) -> Self {
        let mut file = Records::default();
        file.push(SETTINGS, &[254]);
        Self {
            name: name.to_string(),
            file,
        }
    }

    /// The file with `records` behind those of `section`.
    pub fn add<R: AsRef<[u32]>>(mut self, section: usize, records: &[R]) -> Self {
        for record in records {
            self.file.push(section, record.as_ref());
        }
        self
    }

    /// The accepted file itself.
    pub fn unchanged(&self) -> Case {
        self.case(0, "as it stands", |_| ())
    }

    /// The file after one change of its records.
    pub fn case(&self, expected: u32, what: &str, change: impl FnOnce(&mut Records)) -> Case {
        let mut file = self.file.clone();
        change(&mut file);
        self.of_words(expected, what, file.words())
    }

    /// A case of words that need not be a file's.
    pub fn of_words(&self, expected: u32, what: &str, words: Vec<u32>) -> Case {
        Case {
            expected,
            words,
            cause: format!("{}: {what}", self.name),
        }
    }

    /// The cases that change record `number` of `section`, the accepted file
    /// as the first of them.
    pub fn at(&self, section: usize, number: usize) -> Spot<'_> {
        let spot = self.also_at(section, number);
        Spot {
            cases: vec![self.unchanged()],
            ..spot
        }
    }

    /// The same without the accepted file, where that is a case already.
    pub fn also_at(&self, section: usize, number: usize) -> Spot<'_> {
        Spot {
            base: self,
            section,
            number,
            cases: Vec::new(),
        }
    }
}

/// The record that is changed, and the cases made so far.
pub struct Spot<'a> {
    base: &'a Base,
    section: usize,
    number: usize,
    pub cases: Vec<Case>,
}

impl Spot<'_> {
    /// A case in which `words` stand from word `first` of the record on.
    pub fn change(mut self, expected: u32, first: usize, words: &[u32], what: &str) -> Self {
        let case = self.base.case(expected, what, |file| {
            let record = &mut file.sections[self.section][self.number];
            record[first..first + words.len()].copy_from_slice(words);
        });
        self.cases.push(case);
        self
    }

    pub fn changes(self, changes: &[Change]) -> Self {
        changes
            .iter()
            .fold(self, |spot, (expected, first, words, what)| {
                spot.change(*expected, *first, words, what)
            })
    }

    /// Each of `words` is unused, so that 1 there is refusal 3.
    pub fn unused(self, words: &[usize]) -> Self {
        words.iter().fold(self, |spot, word| {
            spot.change(3, *word, &[1], &format!("unused word {word} is 1"))
        })
    }
}
