//! The container's stand-in with a default string length of 1.

pub use container::*;

pub const DEFAULT_STRING_MAX_LENGTH: u16 = 1;
