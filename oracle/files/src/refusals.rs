//! Declaration files with the refusal that document 01 gives each, for other
//! programs to replay. Each is an accepted file with one change; the
//! expectation is written beside the change, from document 01, and is not
//! taken from `verdict`.

mod alike;
mod array_sizes;
mod case;
mod constants;
mod counts;

mod ends;
mod entries;
mod examples;
mod initializers;
mod orders;
mod pointers;
mod samples;
mod shapes;
mod types;

pub use case::Case;

use crate::frames;
use crate::verdict::verdict;

/// All cases, in the order in which they are stored.
pub fn cases() -> Vec<Case> {
    [
        ends::cases(),
        counts::cases(),
        shapes::cases(),
        types::cases(),
        initializers::cases(),
        entries::cases(),
        constants::cases(),
        alike::cases(),
        array_sizes::cases(),
        orders::cases(),
        examples::cases(),
    ]
    .concat()
}

/// The first case whose expectation `verdict` does not give, in words.
pub fn disagreement(cases: &[Case]) -> Option<String> {
    cases.iter().enumerate().find_map(|(number, case)| {
        let given = verdict(&case.words);
        (given != case.expected).then(|| {
            format!(
                "case {number} ({}): expected {}, given {given}",
                case.cause, case.expected
            )
        })
    })
}

/// For each case a frame with its words, then a word more: the verdict.
pub fn binary(cases: &[Case]) -> std::io::Result<Vec<u8>> {
    let mut bytes = Vec::new();
    for case in cases {
        frames::write(&mut bytes, &case.words)?;
        bytes.extend_from_slice(&case.expected.to_le_bytes());
    }
    Ok(bytes)
}

/// For each case a line: its number, verdict, number of words and cause.
pub fn text(cases: &[Case]) -> String {
    let line = |(number, case): (usize, &Case)| {
        let words = case.words.len();
        format!("{number} {} {words} {}\n", case.expected, case.cause)
    };
    cases.iter().enumerate().map(line).collect()
}

#[cfg(test)]
mod tests;
