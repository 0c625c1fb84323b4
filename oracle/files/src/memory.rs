//! Start memory as document 02, Q-1, describes it: a variable's tree as the
//! controller's bytes, and the nodes that bytes are read as. A plain reading of
//! the paper, for trees that come from elsewhere.

pub mod forms;
pub mod parts;
pub mod places;
mod reading;
mod writing;

use crate::layout::File;
use parts::{Misfit, Part};

/// Name, kind, sign, low, high, width; a string's last word is its width plus
/// 2 × the characters cut (document 02, Q-2).
pub type Node = [u32; 6];

/// A node that its place cannot hold, or bytes that no tree is written as.
pub const UNHELD: u32 = 14;

/// A character that is too wide.
pub const TOO_WIDE: u32 = 15;

// Kinds of nodes that are no constants.
pub const ENUMERATED: u32 = 9;
pub const NULL: u32 = 10;
pub const ARRAY: u32 = 13;
pub const STRUCTURE: u32 = 14;

/// The kind of a string constant and its node.
pub const STRING: u32 = 8;

/// The first node of a variable's tree that its place cannot hold, if there is one.
pub fn misfit(file: &File, variable: u32, tree: &[Node]) -> Option<Misfit> {
    match parts::parts(file, variable, tree) {
        Ok(parts) => parts.iter().find_map(|part| writing::held(part).err()),
        Err(misfit) => Some(misfit),
    }
}

/// The bytes of a variable's tree, or 14 or 15.
pub fn write(file: &File, variable: u32, tree: &[Node]) -> Result<Vec<u8>, u32> {
    let parts = parts::parts(file, variable, tree).map_err(|_| UNHELD)?;
    for part in &parts {
        writing::held(part).map_err(|_| UNHELD)?;
    }
    if parts.iter().any(|part| writing::is_too_wide(file, part)) {
        return Err(TOO_WIDE);
    }
    Ok(parts.iter().flat_map(|part| writing::bytes(file, part)).collect())
}

/// The words of the nodes, and the characters, that bytes are read as by the
/// parts of a variable's tree, or 14.
pub fn read(file: &File, variable: u32, tree: &[Node], bytes: &[u8]) -> Result<(Vec<u32>, Vec<u32>), u32> {
    let parts = parts::parts(file, variable, tree).map_err(|_| UNHELD)?;
    reading::nodes(&parts, bytes).ok_or(UNHELD)
}

/// Whether a part is the head of an array or a structure.
fn is_head(part: &Part) -> bool {
    matches!(part.node[1], ARRAY | STRUCTURE)
}

#[cfg(test)]
mod tests;
