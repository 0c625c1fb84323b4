//! The examples of document 01, all accepted, and some corners.

use super::case::Case;
use crate::text::assemble;

/// The name of each example with its text.
macro_rules! examples {
    ($($name:literal),* $(,)?) => {
        [$(($name, include_str!(concat!("../../../../vectors/examples/", $name, ".txt")))),*]
    };
}

const EXAMPLES: [(&str, &str); 21] = examples![
    "array",
    "array_2047",
    "bool",
    "lreal",
    "real",
    "rules_arrays",
    "rules_structures",
    "rules_subranges",
    "sheet",
    "sint",
    "string_3",
    "string_long",
    "subrange_alias",
    "subrange_alias_reversed",
    "time",
    "corner_alias_circle",
    "corner_conversions",
    "corner_elements",
    "corner_enumerations",
    "corner_nested_repeats",
    "corner_references",
];

pub fn cases() -> Vec<Case> {
    EXAMPLES
        .iter()
        .map(|(name, text)| Case {
            expected: 0,
            words: assemble(text).unwrap_or_else(|error| panic!("{name}: {error}")),
            cause: format!("vectors/examples/{name}.txt"),
        })
        .collect()
}
