//! The container's stand-in with a default string length of 65535.

pub use container::*;

pub const DEFAULT_STRING_MAX_LENGTH: u16 = 65535;
