//! Stand-in for intermediates/enumeration.rs, which numbers the members of an
//! enumeration. Files leave explicit values out, so each has its place's
//! number.

use ironplc_dsl::common::EnumeratedValue;

pub fn resolve_ordinal_values(values: &[EnumeratedValue]) -> Vec<i64> {
    (0..values.len() as i64).collect()
}
