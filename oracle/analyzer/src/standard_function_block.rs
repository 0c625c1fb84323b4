//! Stand-in for the standard function blocks: a file's types are none of them.

#[derive(Debug, Clone, PartialEq)]
pub enum StandardFunctionBlock {}
