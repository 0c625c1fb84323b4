//! Stand-ins for the syntax types that the unchanged files name, with the
//! fields that a declaration file has and those that the files need to
//! compile.

pub mod common;
pub mod core;
pub mod diagnostic;
pub mod fold;
pub mod textual;
pub mod time;
pub mod type_id;
