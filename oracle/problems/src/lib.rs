//! Stand-in for the problems that semantic_type.rs names.

pub enum Problem {
    SubrangeBaseTypeNotNumeric,
    SubrangeOutOfBounds,
}
