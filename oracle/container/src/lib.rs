//! Stand-in for the container's string layout, but for the default length,
//! which each of the crates container_1, container_254 and container_65535
//! adds.

/// Whether a character takes one byte or two.
#[derive(Debug, Clone, Copy, PartialEq)]
pub enum CharWidth {
    Narrow,
    Wide,
}

/// The bytes of a string's characters. Only `SemanticType::slot_count` asks,
/// which has no part in a start value.
pub fn string_region_size(length: u16, width: CharWidth) -> u32 {
    let bytes = match width {
        CharWidth::Narrow => 1,
        CharWidth::Wide => 2,
    };
    u32::from(length) * bytes
}
