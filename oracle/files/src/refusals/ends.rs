//! Refusal 1: the words end before or after the last section does.

use super::case::{Base, Case};
use super::samples::one_of_each;
use crate::layout::*;

pub fn cases() -> Vec<Case> {
    [
        smallest_file(),
        cut_files(),
        counts_without_records(),
        greatest_counts(),
        counts_that_wrap(),
    ]
    .concat()
}

fn smallest() -> Base {
    Base::new("one setting and no other records")
}

fn smallest_file() -> Vec<Case> {
    let base = smallest();
    let words = base.file.words();
    let short = words[..words.len() - 1].to_vec();
    let of = |what, words| base.of_words(1, what, words);
    vec![
        base.unchanged(),
        of("no words at all", vec![]),
        of("the last word left out", short),
        of("one word more, 0", [words.as_slice(), &[0]].concat()),
        of("one word more, 1", [words.as_slice(), &[1]].concat()),
        of("the words twice", [words.as_slice(), &words].concat()),
        of("13 words of 0", vec![0; 13]),
        of("15 words of 0", vec![0; 15]),
    ]
}

/// A file that ends before each section's count and before the last word of
/// each section, and files with words behind the last section.
fn cut_files() -> Vec<Case> {
    let base = one_of_each();
    let words = base.file.words();
    let mut cases = vec![base.unchanged()];
    let mut end = 0;
    for section in 0..SECTIONS {
        let name = NAMES[section];
        if section > SETTINGS {
            let cause = format!("ends before the count of {name}");
            cases.push(base.of_words(1, &cause, words[..end].to_vec()));
        }
        end += 1 + WORDS[section];
        let cause = format!("ends before the last word of {name}");
        cases.push(base.of_words(1, &cause, words[..end - 1].to_vec()));
    }
    let longer = |extra: &[u32]| [words.as_slice(), extra].concat();
    cases.push(base.of_words(1, "one word more", longer(&[0])));
    cases.push(base.of_words(1, "a second character that is not counted", longer(&[66])));
    cases
}

/// The smallest file, with `count` as the count of `section` and `zeros`
/// words of 0 behind that.
fn with_count(section: usize, count: u32, zeros: usize, what: &str) -> Case {
    let base = smallest();
    let mut words = base.file.words();
    // Settings have a word behind their count.
    let at = if section == SETTINGS { 0 } else { section + 1 };
    words[at] = count;
    words.splice(at + 1..at + 1, vec![0; zeros]);
    base.of_words(1, &format!("count of {} {what}", NAMES[section]), words)
}

fn counts_without_records() -> Vec<Case> {
    (SHAPES..SECTIONS)
        .map(|section| with_count(section, 1, 0, "is 1, but there is no record"))
        .collect()
}

fn greatest_counts() -> Vec<Case> {
    (0..SECTIONS)
        .flat_map(|section| {
            [
                with_count(section, u32::MAX, 0, "is 4294967295"),
                with_count(section, i32::MAX as u32, 0, "is 2147483647"),
            ]
        })
        .collect()
}

/// Section, count, and how many words that many records have modulo 2^32:
/// those words are there.
const WRAPPING: [(usize, u32, usize); 11] = [
    (SHAPES, 3_435_973_837, 1),
    (SHAPE_FIELDS, 2_863_311_531, 1),
    (DIMENSIONS, 1 << 31, 0),
    (TYPES, 3_123_612_579, 1),
    (BLOCK_FIELDS, 2_863_311_531, 1),
    (ELEMENTS, 1 << 31, 0),
    (VARIABLES, 1 << 30, 0),
    (INITIALIZERS, 1 << 29, 0),
    (ENTRIES, 1 << 30, 0),
    (EXPRESSIONS, 1 << 31, 0),
    (CONSTANTS, 3_435_973_837, 1),
];

fn counts_that_wrap() -> Vec<Case> {
    WRAPPING
        .iter()
        .map(|(section, count, words)| {
            let what = format!("is {count}, whose words are {words} modulo 2^32");
            with_count(*section, *count, *words, &what)
        })
        .collect()
}
