//! The arms that no declaration file can reach, with the reason.

const RESULTS: &str =
    "only the result of a function or method is asked for here, and a file has neither";

/// File, line of the pattern, reason.
pub const UNREACHABLE: &[(&str, usize, &str)] = &[
    (
        "resolver.rs",
        57,
        "none of the declarations 1 to 9 of a type is a structure initialization",
    ),
    (
        "resolver.rs",
        78,
        "declarations 1 to 8 are data types and 9 is a function block; a file declares nothing else",
    ),
    ("resolver.rs", 175, RESULTS),
    ("resolver.rs", 176, RESULTS),
    ("resolver.rs", 178, RESULTS),
    ("resolver.rs", 179, RESULTS),
    (
        "resolver.rs",
        768,
        "an initializer links to its inline element type itself, which for references is the \
         reference type, so nothing is left to be spelled REF_TO",
    ),
    (
        "value.rs",
        106,
        "no array's value lists an array: entries give constants, enumerated values, structures \
         and expressions, and a default that is an array is taken apart into its values",
    ),
];
