use super::verdict;
use crate::layout::*;
use crate::records::Records;

/// A file that meets no refusal, with each kind of record in a place that
/// the tests below change.
fn accepted() -> Records {
    let mut file = Records::default();
    file.push(SETTINGS, &[254]);
    for shape in [
        [0, 0, 0, 0, 0],   // 0 Bool
        [1, 16, 0, 0, 0],  // 1 Int
        [2, 8, 0, 0, 0],   // 2 UInt
        [9, 0, 1, 0, 0],   // 3 String
        [10, 0, 2, 1, 2],  // 4 Enumeration over Int
        [11, 0, 2, 0, 0],  // 5 Structure
        [12, 1, 0, 1, 0],  // 6 Array of Int
        [13, 1, 0, 1, 0],  // 7 Subrange of Int
        [14, 30, 0, 0, 0], // 8 FunctionBlock
        [15, 31, 0, 0, 0], // 9 Interface
        [16, 1, 0, 0, 0],  // 10 Reference
        [13, 1, 1, 0, 0],  // 11 Subrange, the constants the other way
        [10, 1, 1, 9, 0],  // 12 Enumeration, default past the members
        [12, 6, 1, 2, 0],  // 13 Array of arrays
    ] {
        file.push(SHAPES, &shape);
    }
    for name in [20, 21] {
        file.push(MEMBERS, &[name]);
    }
    file.push(SHAPE_FIELDS, &[40, 0, 0]);
    file.push(SHAPE_FIELDS, &[41, 1, 1]);
    file.push(SHAPE_FIELDS, &[42, 13, 1]);
    file.push(DIMENSIONS, &[1, 3]);
    file.push(DIMENSIONS, &[-1i32 as u32, 0]);
    file.push(DIMENSIONS, &[5, 5]);
    for ty in [
        [0, 0, 0, 0, 0, 0, 0, 0, 0, INLINE, 0],      // 0 none
        [1, 0, 0, 0, 1, 0, 2, 0, 0, INLINE, 0],      // 1 simple
        [7, 0, 0, 0, 2, INLINE, 1, 0, 0, INLINE, 0], // 2 subrange
        [3, 0, 0, 0, 3, 0, 3, 0, 0, INLINE, 0],      // 3 string
        [6, 0, 2, 0, 4, INLINE, 0, 0, 2, INLINE, 0], // 4 array
        [5, 0, 0, 0, 5, 0, 0, 0, 2, INLINE, 0],      // 5 structure
        [10, 0, 0, 2, 6, 0, 0, 0, 0, INLINE, 0],     // 6 reference
        [4, 0, 0, 0, 7, 1, 0, 0, 0, INLINE, 0],      // 7 enumeration
        [1, 2, 0, 0, 8, 2, 0, 0, 0, INLINE, 0],      // 8 late bound
        [8, 0, 0, 0, 9, 0, 0, 0, 2, 0, 2],           // 9 function block
    ] {
        file.push(TYPES, &ty);
    }
    file.push(BLOCK_FIELDS, &[50, 1, 0]);
    file.push(BLOCK_FIELDS, &[51, 0, 3]);
    file.push(ELEMENTS, &[40, 0]);
    file.push(ELEMENTS, &[41, 1]);
    file.push(VARIABLES, &[50, 0, 1, 3]);
    file.push(VARIABLES, &[0, 5, 0, 1]);
    for initializer in [
        [0, 0, 0, 0, 0, 0, 0, 0],      // 0 none
        [3, 2, 0, 1, 0, 0, 0, 0],      // 1 simple
        [2, INLINE, 0, 1, 0, 0, 0, 0], // 2 subrange
        [3, 1, 0, 0, 0, 0, 0, 0],      // 3 simple, no value
        [4, 0, 0, 3, 0, 0, 11, 1],     // 4 string
        [5, 0, 0, 2, 0, 0, 0, 0],      // 5 enumerated values
        [6, 8, 0, 2, 0, 0, 0, 0],      // 6 enumerated type
        [7, 10, 0, 0, 2, 1, 0, 0],     // 7 function block
        [8, 6, 0, 0, 2, 1, 0, 0],      // 8 structure
        [9, INLINE, 2, 0, 0, 2, 0, 0], // 9 array, inline
        [10, 0, 0, 5, 0, 0, 0, 0],     // 10 reference
        [11, 1, 0, 1, 0, 0, 0, 0],     // 11 late resolved
        [12, 0, 0, 0, 0, 0, 0, 0],     // 12 call
        [9, 5, 0, 0, 3, 1, 0, 0],      // 13 array, named
    ] {
        file.push(INITIALIZERS, &initializer);
    }
    for entry in [
        [0, 0, 0, 0],  // 0 constant
        [1, 0, 20, 0], // 1 enumerated
        [0, 40, 0, 0], // 2 constant, named
        [6, 0, 3, 1],  // 3 repeat
        [2, 41, 0, 2], // 4 array, named
        [3, 0, 2, 1],  // 5 structure
        [4, 0, 0, 0],  // 6 expression
        [5, 42, 0, 0], // 7 late bound, named
    ] {
        file.push(ENTRIES, &entry);
    }
    for expression in [[0, 0], [1, 1], [2, 0], [3, 1], [4, 0], [5, 0], [6, 0]] {
        file.push(EXPRESSIONS, &expression);
    }
    for constant in [
        [1, 0, 1, 0, 0], // 0 integer 1
        [1, 1, 9, 0, 0], // 1 integer -9
        [8, 0, 0, 3, 1], // 2 string
        [0, 0, 1, 0, 0], // 3 TRUE
        [4, 1, 0, 1, 1], // 4 duration
        [2, 0, 7, 7, 0], // 5 bit string
        [7, 0, 7, 7, 0], // 6 date and time
    ] {
        file.push(CONSTANTS, &constant);
    }
    for character in [65, 66, u32::MAX] {
        file.push(CHARACTERS, &[character]);
    }
    file
}

/// The verdict of the accepted file with one word changed.
fn with(section: usize, number: usize, word: usize, value: u32) -> u32 {
    let mut file = accepted();
    file.sections[section][number][word] = value;
    verdict(&file.words())
}

/// Each change (record, word, value) of `section` gives `expected`.
fn all_give(expected: u32, section: usize, changes: &[(usize, usize, u32)]) {
    for (number, word, value) in changes {
        assert_eq!(
            with(section, *number, *word, *value),
            expected,
            "{} {number}: word {word} = {value}",
            NAMES[section],
        );
    }
}

#[test]
fn verdict_when_no_refusal_then_0() {
    assert_eq!(verdict(&accepted().words()), 0);
}

#[test]
fn verdict_when_smallest_file_then_0() {
    let mut words = vec![1, 0];
    words.extend([0; 13]);
    assert_eq!(verdict(&words), 0);
}

#[test]
fn verdict_when_words_end_elsewhere_then_1() {
    let words = accepted().words();
    assert_eq!(verdict(&[]), 1);
    assert_eq!(verdict(&words[..words.len() - 1]), 1);
    assert_eq!(verdict(&[words.as_slice(), &[0]].concat()), 1);
    for section in 0..SECTIONS {
        let mut words = vec![0; section];
        words.push(u32::MAX);
        assert_eq!(verdict(&words), 1);
        words.resize(40, 0);
        assert_eq!(verdict(&words), 1);
    }
}

#[test]
fn verdict_when_settings_not_one_then_2() {
    assert_eq!(verdict(&[0; 14]), 2);
    let mut file = accepted();
    file.push(SETTINGS, &[254]);
    assert_eq!(verdict(&file.words()), 2);
}

/// A record of each section that may stand there any number of times.
fn repeated(section: usize, number: u32) -> Vec<u32> {
    match section {
        // Alike shapes are another refusal.
        SHAPES => vec![14, number + 1000, 0, 0, 0],
        TYPES => vec![0, 0, 0, 0, 0, 0, 0, 0, 0, INLINE, 0],
        MEMBERS => vec![1],
        SHAPE_FIELDS | BLOCK_FIELDS => vec![1, 0, 0],
        ELEMENTS => vec![1, 0],
        ENTRIES => vec![5, 1, 0, 0],
        EXPRESSIONS => vec![6, 0],
        _ => vec![0; WORDS[section]],
    }
}

#[test]
fn verdict_when_section_at_its_limit_then_0_and_past_it_2() {
    for section in SHAPES..SECTIONS {
        let mut file = accepted();
        while (file.count(section) as usize) < MOST[section] {
            let number = file.count(section);
            file.push(section, &repeated(section, number));
        }
        assert_eq!(verdict(&file.words()), 0, "{}", NAMES[section]);
        file.push(section, &repeated(section, 5000));
        assert_eq!(verdict(&file.words()), 2, "{}", NAMES[section]);
    }
}

#[test]
fn verdict_when_plain_word_wrong_then_3() {
    all_give(3, SETTINGS, &[(0, 0, 65_536), (0, 0, u32::MAX)]);
    all_give(0, SETTINGS, &[(0, 0, 65_535), (0, 0, 0)]);
    all_give(
        3,
        SHAPES,
        &[
            (0, 0, 17),
            (0, 1, 8),
            (0, 4, 1),
            (1, 1, 0),
            (1, 1, 24),
            (1, 1, 128),
            (1, 2, 1),
            (3, 2, 2),
            (3, 3, 1),
            (5, 3, 1),
            (5, 4, 1),
            (6, 4, 1),
            (7, 4, 1),
            (8, 1, 0),
            (8, 2, 1),
            (9, 1, 0),
            (10, 2, 1),
        ],
    );
    all_give(0, SHAPES, &[(3, 1, u32::MAX), (4, 3, u32::MAX), (1, 1, 64)]);
    all_give(3, MEMBERS, &[(0, 0, 0)]);
    all_give(3, SHAPE_FIELDS, &[(0, 0, 0), (0, 2, 2)]);
    all_give(
        3,
        DIMENSIONS,
        &[(0, 0, 4), (1, 1, -2i32 as u32), (2, 1, 1 << 31)],
    );
    all_give(0, DIMENSIONS, &[(0, 0, 3)]);
    all_give(3, BLOCK_FIELDS, &[(0, 0, 0), (1, 2, 4)]);
    all_give(3, ELEMENTS, &[(1, 0, 0)]);
    all_give(3, VARIABLES, &[(0, 1, 6)]);
    all_give(0, VARIABLES, &[(0, 0, 0), (0, 1, 5)]);
}

#[test]
fn verdict_when_type_word_unused_then_3() {
    all_give(
        3,
        TYPES,
        &[
            (0, 4, 10),
            (0, 5, 1),
            (0, 6, 1),
            (0, 7, 1),
            (0, 8, 1),
            (1, 5, 1),
            (1, 5, INLINE),
            (1, 7, 1),
            (3, 5, 1),
            (4, 6, 1),
            (5, 5, 1),
            (6, 6, 1),
            (6, 8, 1),
            (7, 6, 1),
            (8, 7, 1),
            (9, 5, 1),
            (9, 6, 1),
        ],
    );
}

#[test]
fn verdict_when_initializer_word_unused_then_3() {
    all_give(
        3,
        INITIALIZERS,
        &[
            (0, 0, 15),
            (0, 2, 1),
            (0, 3, 1),
            (0, 4, 1),
            (0, 5, 1),
            (0, 6, 1),
            (0, 7, 1),
            (4, 7, 2),
            (4, 4, 1),
            (3, 6, 1),
            (7, 3, 1),
            (9, 3, 1),
            (10, 1, 1),
            (10, 1, INLINE),
            (12, 3, 1),
            (13, 2, 1),
        ],
    );
    all_give(0, INITIALIZERS, &[(4, 6, u32::MAX), (4, 6, 0), (0, 1, 3)]);
}

#[test]
fn verdict_when_entry_expression_or_constant_word_wrong_then_3() {
    all_give(
        3,
        ENTRIES,
        &[
            (0, 0, 7),
            (0, 3, 1),
            (1, 2, 0),
            (6, 3, 1),
            (7, 2, 1),
            (7, 3, 1),
        ],
    );
    all_give(0, ENTRIES, &[(1, 3, 99), (3, 2, u32::MAX), (7, 1, 0)]);
    all_give(
        3,
        EXPRESSIONS,
        &[(0, 0, 7), (4, 1, 1), (5, 1, 1), (6, 1, 1)],
    );
    all_give(
        3,
        CONSTANTS,
        &[
            (6, 0, 9),
            (0, 1, 2),
            (0, 4, 1),
            (2, 4, 2),
            (2, 1, 1),
            (3, 1, 1),
            (3, 2, 2),
            (3, 3, 1),
            (3, 4, 1),
            (4, 3, 0),
            (4, 4, 2),
            (5, 1, 1),
            (5, 4, 1),
            (6, 1, 1),
            (6, 4, 2),
        ],
    );
    all_give(0, CONSTANTS, &[(0, 1, 1), (6, 4, 1), (3, 2, 0)]);
}

#[test]
fn verdict_when_shape_points_wrong_then_4() {
    all_give(
        4,
        SHAPES,
        &[
            (4, 1, 1),
            (4, 2, 3),
            (4, 2, u32::MAX),
            (4, 4, 5),
            (4, 4, 6),
            (5, 2, 4),
            (5, 1, 1),
            (5, 1, u32::MAX),
            (6, 1, 6),
            (6, 1, 99),
            (6, 3, 0),
            (6, 2, 3),
            (7, 1, 7),
            (7, 2, 7),
            (7, 2, 2),
            (7, 3, 3),
            (10, 1, 10),
        ],
    );
    // An empty run may begin where the section ends, no further.
    let mut file = accepted();
    file.sections[SHAPES][5] = vec![11, 3, 0, 0, 0];
    assert_eq!(verdict(&file.words()), 0);
    file.sections[SHAPES][5] = vec![11, 4, 0, 0, 0];
    assert_eq!(verdict(&file.words()), 4);
    all_give(4, SHAPE_FIELDS, &[(2, 1, 14), (0, 1, 5)]);
    all_give(0, SHAPE_FIELDS, &[(0, 1, 4)]);
}

#[test]
fn verdict_when_type_points_wrong_then_4() {
    all_give(
        4,
        TYPES,
        &[
            (0, 0, 14),
            (0, 1, 11),
            (0, 2, 11),
            (0, 3, INLINE),
            (1, 6, 0),
            (1, 6, 15),
            (2, 5, 11),
            (2, 6, 3),
            (2, 6, 4),
            (2, 6, 8),
            (3, 6, 1),
            (4, 8, 3),
            (4, 7, 4),
            (4, 8, 9),
            (5, 8, 3),
            (6, 5, INLINE),
            (7, 5, INLINE),
            (8, 5, 11),
            (9, 8, 3),
            (9, 10, 3),
            (0, 10, 1),
            (0, 9, 3),
        ],
    );
    all_give(
        0,
        TYPES,
        &[
            (2, 5, 0),
            (2, 6, 0),
            (3, 6, 0),
            (4, 8, 0),
            (6, 5, 3),
            (0, 9, 2),
        ],
    );
}

#[test]
fn verdict_when_other_record_points_wrong_then_4() {
    all_give(4, BLOCK_FIELDS, &[(0, 1, 11)]);
    all_give(4, ELEMENTS, &[(0, 1, 14)]);
    all_give(4, VARIABLES, &[(0, 2, 11), (0, 3, 14)]);
    all_give(
        4,
        INITIALIZERS,
        &[
            (0, 1, INLINE),
            (1, 1, 11),
            (1, 3, 8),
            (2, 3, 3),
            (4, 3, 1),
            (5, 3, 1),
            (6, 3, 9),
            (6, 1, INLINE),
            (7, 4, 0),
            (8, 5, 2),
            (9, 2, 11),
            (9, 5, 3),
            (10, 3, 1),
            (10, 3, 7),
            (13, 4, 2),
        ],
    );
    all_give(
        0,
        INITIALIZERS,
        &[(10, 3, 6), (10, 3, 0), (11, 3, 0), (1, 3, 4)],
    );
    all_give(
        4,
        ENTRIES,
        &[
            (0, 2, 7),
            (3, 3, 3),
            (3, 3, 4),
            (4, 2, 1),
            (4, 3, 4),
            (5, 2, 1),
            (5, 3, 4),
            (6, 2, 7),
        ],
    );
    all_give(0, ENTRIES, &[(3, 3, 0), (3, 3, 2), (5, 3, 0)]);
    all_give(
        4,
        EXPRESSIONS,
        &[(0, 1, 7), (1, 1, 0), (1, 1, 2), (2, 1, 2), (3, 1, 3)],
    );
    all_give(4, CONSTANTS, &[(2, 3, 4), (2, 2, 1), (2, 3, u32::MAX)]);
    all_give(0, CONSTANTS, &[(2, 3, 0), (2, 3, 2)]);
}

#[test]
fn verdict_when_3_and_4_then_3() {
    let mut file = accepted();
    file.sections[SHAPES][6][1] = 99;
    file.sections[CONSTANTS][0][1] = 2;
    assert_eq!(verdict(&file.words()), 3);
}

#[test]
fn verdict_when_shapes_alike_then_5() {
    // Constants by value, not by number.
    let mut file = accepted();
    file.push(CONSTANTS, &[1, 0, 1, 0, 0]);
    file.push(SHAPES, &[13, 1, 7, 1, 0]);
    assert_eq!(verdict(&file.words()), 5);
    file.sections[CONSTANTS][7][3] = 1;
    assert_eq!(verdict(&file.words()), 0);
    // Runs by what they list.
    for (section, record, shape) in [
        (MEMBERS, vec![21], [10, 2, 1, 9, 0]),
        (DIMENSIONS, vec![1, 3], [12, 1, 3, 1, 0]),
    ] {
        let mut file = accepted();
        file.push(section, &record);
        file.push(SHAPES, &shape);
        assert_eq!(verdict(&file.words()), 5);
        file.sections[section].last_mut().unwrap()[0] = 2;
        assert_eq!(verdict(&file.words()), 0);
    }
    let mut file = accepted();
    for field in [[40, 0, 0], [41, 1, 1]] {
        file.push(SHAPE_FIELDS, &field);
    }
    file.push(SHAPES, &[11, 3, 2, 0, 0]);
    assert_eq!(verdict(&file.words()), 5);
    file.sections[SHAPE_FIELDS][4][2] = 0;
    assert_eq!(verdict(&file.words()), 0);
    // Plain words.
    let mut file = accepted();
    file.push(SHAPES, &[1, 16, 0, 0, 0]);
    assert_eq!(verdict(&file.words()), 5);
    let mut file = accepted();
    file.push(SHAPES, &[9, 0, 1, 0, 0]);
    assert_eq!(verdict(&file.words()), 5);
}

#[test]
fn verdict_when_array_shape_large_then_6() {
    all_give(0, DIMENSIONS, &[(0, 1, 65_536)]);
    all_give(6, DIMENSIONS, &[(0, 1, 65_537), (0, 1, i32::MAX as u32)]);
    let mut file = accepted();
    file.sections[DIMENSIONS][1] = vec![1, 256];
    file.sections[DIMENSIONS][2] = vec![-127i32 as u32, 128];
    assert_eq!(verdict(&file.words()), 0);
    file.sections[DIMENSIONS][2][1] = 129;
    assert_eq!(verdict(&file.words()), 6);
    // The whole range of bounds, several times over.
    let mut file = accepted();
    for _ in 0..5 {
        file.push(DIMENSIONS, &[1 << 31, i32::MAX as u32]);
    }
    file.push(SHAPES, &[12, 1, 3, 5, 0]);
    assert_eq!(verdict(&file.words()), 6);
}

#[test]
fn verdict_when_5_and_6_then_5() {
    let mut file = accepted();
    file.sections[DIMENSIONS][0][1] = 65_537;
    file.push(SHAPES, &[0, 0, 0, 0, 0]);
    assert_eq!(verdict(&file.words()), 5);
}
