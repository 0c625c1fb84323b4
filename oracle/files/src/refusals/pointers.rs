//! The cases that every number, link and run has: just inside its section,
//! just outside, and runs whose words have a small sum in 32 bits.
//!
//! The changed record's own word must be another than these, or a case would
//! be the accepted file again: numbers begin as 0, links as 1, runs as 1 and
//! 1, where the section has at least two records, for runs three.

use super::case::Spot;
use crate::layout::INLINE;

/// How a record's number is written in a word that points at it.
pub type Pointing = fn(u32) -> Vec<u32>;

pub fn number(record: u32) -> Vec<u32> {
    vec![record]
}

pub fn link(record: u32) -> Vec<u32> {
    vec![record + 1]
}

/// A run that lists this record alone.
pub fn run(record: u32) -> Vec<u32> {
    vec![record, 1]
}

impl Spot<'_> {
    /// `changes` of word `word`, each cause after `what`.
    fn of(self, word: usize, what: &str, changes: &[(u32, &[u32], &str)]) -> Self {
        changes
            .iter()
            .fold(self, |spot, (expected, words, meaning)| {
                spot.change(*expected, word, words, &format!("{what} {meaning}"))
            })
    }

    /// A number of a section with `count` records.
    pub fn number(self, word: usize, what: &str, count: u32) -> Self {
        self.of(word, what, &[(0, &[count - 1], "is the last record")])
            .number_outside(word, what, count)
    }

    /// A number outside a section with `count` records.
    pub fn number_outside(self, word: usize, what: &str, count: u32) -> Self {
        self.of(
            word,
            what,
            &[
                (4, &[count], "is one past the last record"),
                (4, &[u32::MAX], "is 4294967295"),
            ],
        )
    }

    /// A number that must be below `own`, in a section with `count` records,
    /// one of them behind `own`.
    pub fn lower_number(self, word: usize, what: &str, own: u32, count: u32) -> Self {
        self.of(
            word,
            what,
            &[
                (0, &[own - 1], "is the record just before"),
                (4, &[own], "is the record itself"),
                (4, &[own + 1], "is the record just behind"),
            ],
        )
        .number_outside(word, what, count)
    }

    /// A link to a section with `count` records; inline is not allowed.
    pub fn link(self, word: usize, what: &str, count: u32) -> Self {
        self.any_link(word, what, count)
            .of(word, what, &[(4, &[INLINE], "is 4294967295")])
    }

    /// A link to a section with `count` records, or inline.
    pub fn link_or_inline(self, word: usize, what: &str, count: u32) -> Self {
        self.any_link(word, what, count)
            .of(word, what, &[(0, &[INLINE], "is inline")])
    }

    /// A link to a section with `count` records, whatever inline is.
    pub fn any_link(self, word: usize, what: &str, count: u32) -> Self {
        self.of(
            word,
            what,
            &[
                (0, &[0], "is none"),
                (0, &[count], "is the last record"),
                (4, &[count + 1], "is one past the last record"),
                (4, &[u32::MAX - 1], "is 4294967294"),
            ],
        )
    }

    /// A link that is none or outside a section with `count` records.
    pub fn none_or_outside(self, word: usize, what: &str, count: u32) -> Self {
        self.of(
            word,
            what,
            &[
                (0, &[0], "is none"),
                (4, &[count + 1], "is one past the last record"),
                (4, &[u32::MAX], "is 4294967295"),
            ],
        )
    }

    /// A run of a section with `count` records that may be empty and whose
    /// records are all allowed.
    pub fn run(self, word: usize, what: &str, count: u32) -> Self {
        self.of(word, what, &[(0, &[0, count], "is the whole section")])
            .empty_runs(word, what, count)
            .run_outside(word, what, count)
            .of(word, what, &[(4, &[u32::MAX, 0], "is empty at 4294967295")])
    }

    /// Empty runs, inside a section with `count` records and behind it.
    pub fn empty_runs(self, word: usize, what: &str, count: u32) -> Self {
        self.of(
            word,
            what,
            &[
                (0, &[0, 0], "is empty"),
                (0, &[count, 0], "is empty where the section ends"),
                (4, &[count + 1, 0], "is empty one past the section's end"),
            ],
        )
    }

    /// Runs that list something outside a section with `count` records.
    pub fn run_outside(self, word: usize, what: &str, count: u32) -> Self {
        self.of(
            word,
            what,
            &[
                (4, &[0, count + 1], "counts one more than the section"),
                (4, &[1, count], "begins one late and ends one late"),
                (4, &[count, 1], "begins one past the last record"),
                (4, &[0, u32::MAX], "counts 4294967295"),
                (4, &[u32::MAX, 1], "has words whose sum is 2^32"),
                (4, &[1, u32::MAX], "counts 4294967295 from 1 on"),
                (4, &[1 << 31, 1 << 31], "has two words of 2^31"),
            ],
        )
    }

    /// Word `word` points at each of the records 0, 1, ... in turn, which are
    /// of the kinds that `kinds` names; `expected` is by kind.
    pub fn kinds(
        self,
        (word, what): (usize, &str),
        pointing: Pointing,
        kinds: &[&str],
        expected: &[u32],
    ) -> Self {
        assert_eq!(kinds.len(), expected.len(), "a verdict for each kind");
        (0..)
            .zip(kinds.iter().zip(expected))
            .fold(self, |spot, (record, (kind, expected))| {
                let cause = format!("{what} is {kind}");
                spot.change(*expected, word, &pointing(record), &cause)
            })
    }
}
