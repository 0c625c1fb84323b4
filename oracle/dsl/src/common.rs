//! The syntax of declarations.

mod constants;
mod declarations;
mod initializers;
mod names;

pub use constants::*;
pub use declarations::*;
pub use initializers::*;
pub use names::*;
