//! Shapes as semantic types.

use files::layout::{File, DIMENSIONS, MEMBERS, SHAPES, SHAPE_FIELDS};
use ironplc_container::CharWidth;
use ironplc_dsl::core::Id;
use syntax::Syntax;

use crate::enumeration_members::{access, EnumerationMembers};
use crate::semantic_type::{ArrayDimension, ByteSized, SemanticStructField, SemanticType};

/// Shape `number`. A shape that others point at is read again for each, since
/// a semantic type is a tree.
pub fn semantic_type(file: File, number: usize) -> SemanticType {
    of_words(file, file.record(SHAPES, number))
}

/// The words of a shape, which need not stand in the file.
pub fn of_words(file: File, words: &[u32]) -> SemanticType {
    let shape = |number: u32| semantic_type(file, number as usize);
    let size = || byte_sized(words[1]);
    match words[0] {
        0 => SemanticType::Bool,
        1 => SemanticType::Int { size: size() },
        2 => SemanticType::UInt { size: size() },
        3 => SemanticType::Real { size: size() },
        4 => SemanticType::Bytes { size: size() },
        5 => SemanticType::Time { size: size() },
        6 => SemanticType::Date { size: size() },
        7 => SemanticType::TimeOfDay { size: size() },
        8 => SemanticType::DateAndTime { size: size() },
        9 => SemanticType::String {
            max_len: words[1].checked_sub(1).map(u128::from),
            char_width: match words[2] {
                0 => CharWidth::Narrow,
                _ => CharWidth::Wide,
            },
        },
        10 => SemanticType::Enumeration {
            members: members(file, words[1], words[2], words[3]),
            underlying_type: words[4].checked_sub(1).map(|link| Box::new(shape(link))),
        },
        11 => SemanticType::Structure {
            fields: fields(file, words[1], words[2]),
        },
        12 => SemanticType::Array {
            element_type: Box::new(shape(words[1])),
            dimensions: dimensions(file, words[2], words[3]),
        },
        13 => SemanticType::Subrange {
            base_type: Box::new(shape(words[1])),
            min_value: Syntax::of(file).integer(words[2]),
            max_value: Syntax::of(file).integer(words[3]),
        },
        14 => SemanticType::FunctionBlock {
            name: words[1].to_string(),
        },
        15 => SemanticType::Interface {
            name: words[1].to_string(),
        },
        16 => SemanticType::Reference {
            target_type: Box::new(shape(words[1])),
        },
        kind => panic!("no shape is of kind {kind}"),
    }
}

fn byte_sized(bits: u32) -> ByteSized {
    match bits {
        8 => ByteSized::B8,
        16 => ByteSized::B16,
        32 => ByteSized::B32,
        64 => ByteSized::B64,
        _ => panic!("no type has {bits} bits"),
    }
}

fn members(file: File, first: u32, count: u32, default: u32) -> EnumerationMembers {
    let members = first..first + count;
    let names = members.map(|number| Id::new(file.record(MEMBERS, number as usize)[0]));
    access::members(names, default as usize)
}

/// Shape fields: name, shape, whether there is a default.
fn fields(file: File, first: u32, count: u32) -> Vec<SemanticStructField> {
    (first..first + count)
        .map(|number| {
            let words = file.record(SHAPE_FIELDS, number as usize);
            SemanticStructField {
                name: Id::new(words[0]),
                field_type: semantic_type(file, words[1] as usize),
                has_default: words[2] == 1,
            }
        })
        .collect()
}

fn dimensions(file: File, first: u32, count: u32) -> Vec<ArrayDimension> {
    (first..first + count)
        .map(|number| {
            let words = file.record(DIMENSIONS, number as usize);
            ArrayDimension {
                lower: words[0] as i32,
                upper: words[1] as i32,
            }
        })
        .collect()
}
