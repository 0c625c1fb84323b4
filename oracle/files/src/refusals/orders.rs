//! Files that break two rules or more: each refusal is decided over the
//! whole file before the next, wherever the records stand.

use super::case::{Base, Case};
use super::samples::one_of_each;
use crate::layout::*;
use crate::records::Records;

pub fn cases() -> Vec<Case> {
    [
        pairs(),
        ends_first(),
        all_at_once(),
        words_before_pointers(),
        pointers_behind_words(),
        in_one_record(),
        pointers_before_shapes(),
        counts_at_the_end(),
    ]
    .concat()
}

/// Shape 2 is an array of three Bools; the constants are a string and a date.
fn base() -> Base {
    let bool_shape = [0, 0, 0, 0, 0];
    let array = [12, 0, 0, 1, 0];
    Base::new("an array, a string and a date")
        .add(
            SHAPES,
            &[bool_shape, [2, 8, 0, 0, 0], array, [1, 16, 0, 0, 0]],
        )
        .add(DIMENSIONS, &[[1, 3]])
        .add(CONSTANTS, &[[8, 0, 0, 1, 0], [6, 0, 5, 0, 0]])
        .add(CHARACTERS, &[[65]])
}

/// A change, the refusal that it alone is, and what it is.
type Breach = (u32, fn(&mut Records), &'static str);

/// Early and late breaches of each rule from 2 to 6, where both can be.
const BREACHES: [Breach; 9] = [
    (2, second_setting, "a second setting"),
    (3, long_default, "a setting of 65536"),
    (3, wide_date, "width 2 in the last constant"),
    (4, element_itself, "an array of itself"),
    (4, string_outside, "a string past the characters"),
    (5, bool_again, "a second Bool behind the array"),
    (5, two_bools_first, "two Bools before the array"),
    (6, long_array, "65537 elements"),
    (6, another_long_array, "65538 elements in the last shape"),
];

fn second_setting(file: &mut Records) {
    file.push(SETTINGS, &[254]);
}

fn long_default(file: &mut Records) {
    file.sections[SETTINGS][0][0] = 65_536;
}

fn wide_date(file: &mut Records) {
    file.sections[CONSTANTS][1][4] = 2;
}

fn element_itself(file: &mut Records) {
    file.sections[SHAPES][2][1] = 2;
}

fn string_outside(file: &mut Records) {
    file.sections[CONSTANTS][0][3] = 2;
}

fn bool_again(file: &mut Records) {
    file.push(SHAPES, &[0, 0, 0, 0, 0]);
}

fn two_bools_first(file: &mut Records) {
    file.sections[SHAPES][1] = vec![0, 0, 0, 0, 0];
}

fn long_array(file: &mut Records) {
    file.sections[DIMENSIONS][0][1] = 65_537;
}

fn another_long_array(file: &mut Records) {
    let first = file.push(DIMENSIONS, &[1, 65_538]);
    file.push(SHAPES, &[12, 0, first, 1, 0]);
}

/// Each breach alone, then each two of different refusals: the lower wins.
fn pairs() -> Vec<Case> {
    let base = base();
    let mut cases = vec![base.unchanged()];
    for (place, (expected, change, what)) in BREACHES.iter().enumerate() {
        cases.push(base.case(*expected, &format!("only {what}"), change));
        for (higher, other, other_what) in &BREACHES[place + 1..] {
            if higher > expected {
                let what = format!("{what}, {other_what}");
                cases.push(base.case(*expected, &what, |file| {
                    change(file);
                    other(file);
                }));
            }
        }
    }
    cases
}

/// Refusal 1 wins over every other.
fn ends_first() -> Vec<Case> {
    let base = base();
    BREACHES
        .iter()
        .flat_map(|(_, change, what)| {
            let mut file = base.file.clone();
            change(&mut file);
            let words = file.words();
            let short = words[..words.len() - 1].to_vec();
            let long = [words.as_slice(), &[0]].concat();
            [
                base.of_words(1, &format!("one word short, {what}"), short),
                base.of_words(1, &format!("one word long, {what}"), long),
            ]
        })
        .collect()
}

/// The breaches of each refusal from `lowest` to 6 in one file.
fn all_from(lowest: u32) -> Records {
    let mut file = base().file;
    for (number, change, _) in &BREACHES {
        if *number >= lowest {
            change(&mut file);
        }
    }
    file
}

fn all_at_once() -> Vec<Case> {
    let base = Base::new("every rule broken");
    let mut long = all_from(2).words();
    long.push(0);
    vec![
        base.of_words(1, "of refusals 1 to 6", long),
        base.of_words(2, "of refusals 2 to 6", all_from(2).words()),
        base.of_words(3, "of refusals 3 to 6", all_from(3).words()),
        base.of_words(4, "of refusals 4 to 6", all_from(4).words()),
        base.of_words(5, "of refusals 5 and 6", all_from(5).words()),
    ]
}

/// A section, a word of its only record and a value that is refusal 3.
const WRONG_WORDS: [(usize, usize, u32); 13] = [
    (SETTINGS, 0, 65_536),
    (SHAPES, 4, 1),
    (MEMBERS, 0, 0),
    (SHAPE_FIELDS, 2, 2),
    (DIMENSIONS, 0, 4),
    (TYPES, 4, 10),
    (BLOCK_FIELDS, 2, 4),
    (ELEMENTS, 0, 0),
    (VARIABLES, 1, 6),
    (INITIALIZERS, 7, 1),
    (ENTRIES, 0, 7),
    (EXPRESSIONS, 0, 7),
    (CONSTANTS, 1, 2),
];

/// The first shape is refusal 4, and one section more is refusal 3.
fn words_before_pointers() -> Vec<Case> {
    let base = one_of_each();
    let reference = vec![16, 0, 0, 0, 0];
    WRONG_WORDS
        .iter()
        .map(|(section, word, value)| {
            let name = NAMES[*section];
            let what = format!("a reference to itself as shape, a wrong word in {name}");
            base.case(3, &what, |file| {
                file.sections[SHAPES][0] = reference.clone();
                file.sections[*section][0][*word] = *value;
            })
        })
        .collect()
}

/// A section, a word of its only record and a value that is refusal 4.
const WRONG_POINTERS: [(usize, usize, u32); 10] = [
    (SHAPE_FIELDS, 1, 1),
    (TYPES, 0, 1),
    (TYPES, 10, 1),
    (BLOCK_FIELDS, 1, 2),
    (ELEMENTS, 1, 1),
    (VARIABLES, 2, 2),
    (VARIABLES, 3, 1),
    (INITIALIZERS, 3, 2),
    (ENTRIES, 2, 1),
    (EXPRESSIONS, 1, 1),
];

/// Each wrong pointer alone, then with a wrong word in the last section that
/// can have one: constants.
fn pointers_behind_words() -> Vec<Case> {
    let base = one_of_each();
    WRONG_POINTERS
        .iter()
        .flat_map(|(section, word, value)| {
            let place = format!("word {word} of {}", NAMES[*section]);
            let pointer = |file: &mut Records| file.sections[*section][0][*word] = *value;
            let alone = base.case(4, &format!("{place} points outside"), pointer);
            let what = format!("{place} points outside, sign 2 in the last constant");
            let both = base.case(3, &what, |file| {
                pointer(file);
                file.sections[CONSTANTS][0][1] = 2;
            });
            [alone, both]
        })
        .collect()
}

/// A section and its only record, which meets refusals 3 and 4 both.
const WRONG_RECORDS: &[(usize, &[u32], &str)] = &[
    (
        SHAPES,
        &[11, 0, 2, 1, 0],
        "a Structure past the fields with word 3",
    ),
    (SHAPES, &[12, 0, 0, 0, 1], "an Array of itself with word 4"),
    (
        SHAPES,
        &[13, 0, 9, 9, 1],
        "a Subrange of itself with word 4",
    ),
    (
        SHAPES,
        &[16, 0, 1, 0, 0],
        "a Reference to itself with word 2",
    ),
    (
        SHAPE_FIELDS,
        &[0, 1, 0],
        "a field without a name, shape outside",
    ),
    (
        TYPES,
        &[1, 0, 0, 0, 0, 1, 0, 0, 0, 0, 0],
        "a shape outside, a named type",
    ),
    (
        TYPES,
        &[0, 0, 0, 0, 1, 0, 0, 1, 0, 0, 0],
        "no start value, a run",
    ),
    (
        TYPES,
        &[0, 0, 0, 0, 6, INLINE, 1, 0, 0, 0, 0],
        "inline, a start value",
    ),
    (BLOCK_FIELDS, &[50, 2, 4], "a type outside, kind 4"),
    (ELEMENTS, &[0, 1], "no name, initializer outside"),
    (VARIABLES, &[50, 6, 2, 1], "kind 6, type outside"),
    (
        INITIALIZERS,
        &[3, INLINE, 1, 0, 0, 0, 0, 0],
        "inline, an element type",
    ),
    (
        INITIALIZERS,
        &[4, 0, 0, 9, 0, 0, 0, 2],
        "value outside, width 2",
    ),
    (
        INITIALIZERS,
        &[9, 0, 2, 0, 0, 9, 0, 0],
        "entries outside, an element type",
    ),
    (ENTRIES, &[0, 0, 9, 1], "constant outside, word 3"),
    (ENTRIES, &[4, 0, 9, 1], "expression outside, word 3"),
    (CONSTANTS, &[8, 1, 9, 9, 0], "characters outside, sign 1"),
    (CONSTANTS, &[8, 0, 9, 9, 2], "characters outside, width 2"),
];

fn in_one_record() -> Vec<Case> {
    let base = one_of_each();
    WRONG_RECORDS
        .iter()
        .map(|(section, record, what)| {
            let what = format!("in {}: {what}", NAMES[*section]);
            base.case(3, &what, |file| {
                file.sections[*section][0] = record.to_vec();
            })
        })
        .collect()
}

/// Shapes whose words are equal but whose runs or constants are not allowed.
fn pointers_before_shapes() -> Vec<Case> {
    let base = Base::new("two shapes of the same words").add(SHAPES, &[[0; 5]]);
    let twice = |what: &str, shape: [u32; 5]| {
        base.case(4, what, |file| {
            file.push(SHAPES, &shape);
            file.push(SHAPES, &shape);
        })
    };
    vec![
        twice("Enumerations past the members", [10, 0, 1, 0, 0]),
        twice("Structures past the fields", [11, 0, 1, 0, 0]),
        twice("Arrays past the dimensions", [12, 0, 0, 1, 0]),
        twice("Subranges past the constants", [13, 0, 0, 0, 0]),
        twice("References past the shapes", [16, 9, 0, 0, 0]),
    ]
}

/// A late section past its limit wins over refusals 3 to 6 before it.
fn counts_at_the_end() -> Vec<Case> {
    let nulls = vec![[4, 0]; MOST[EXPRESSIONS] + 1];
    let base = Base::new("4097 expressions").add(EXPRESSIONS, &nulls);
    let expressions = &base.file.sections[EXPRESSIONS];
    let mut file = all_from(3);
    file.sections[EXPRESSIONS] = expressions.clone();
    vec![base.of_words(2, "and every rule of refusals 3 to 6 broken", file.words())]
}
