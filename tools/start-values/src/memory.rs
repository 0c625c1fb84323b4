//! A variable's start memory: its bytes, a row for each leaf of them, and the
//! rows that bytes are read as.

use files::layout::{File, VARIABLES};
use files::memory::parts::{parts, Part};

use crate::library::{read_memory, variable_tree, write_memory, Refused};
use crate::names::Names;
use crate::rows::{characters, tree_rows, Stop};
use crate::values::{kind, Node};

/// The heading lines' columns.
pub const BYTES_HEADING: [&str; 4] = ["offset", "bytes", "path", "value"];
pub const READ_HEADING: [&str; 3] = ["path", "kind", "value"];

/// A node its place cannot hold, or bytes that no tree is written as.
const UNHELD: Refused = Refused(14);

/// The variable that is meant: a number, or a name that one variable has.
pub fn number(words: &[u32], names: &Names, said: &str) -> Result<u32, Stop> {
    if let Ok(number) = said.parse() {
        return Ok(number);
    }
    let name = names.number(said).ok_or(format!("{said} is not among the names"))?;
    let file = File::open(words).ok_or(Refused(1))?;
    let all = 0..file.count(VARIABLES);
    let called: Vec<usize> = all.filter(|number| file.record(VARIABLES, *number)[0] == name).collect();
    match called[..] {
        [number] => Ok(number as u32),
        [] => Err(Refused(7).into()),
        _ => Err(format!("{said} is the name of variables {called:?}: say which by its number").into()),
    }
}

/// The bytes of a variable's tree.
pub fn bytes(words: &[u32], variable: u32) -> Result<Vec<u8>, Stop> {
    write_memory(words, variable)?.ok_or(Stop::None)
}

fn tree(words: &[u32], variable: u32) -> Result<Vec<Node>, Stop> {
    let nodes = variable_tree(words, variable)?.ok_or(Stop::None)?;
    Ok(nodes.as_chunks().0.to_vec())
}

fn is_leaf(part: &Part) -> bool {
    kind(&part.node).is_some()
}

/// A row for each leaf: where its bytes begin, these, its path and its value.
pub fn bytes_rows(words: &[u32], names: &Names, variable: u32) -> Result<Vec<String>, Stop> {
    let bytes = bytes(words, variable)?;
    let file = File::open(words).ok_or(Refused(1))?;
    let tree = tree(words, variable)?;
    // Only how many bytes each leaf has is worked out here.
    let parts = parts(&file, variable, &tree).map_err(|_| UNHELD)?;
    let rows = tree_rows(file, names, variable, &tree, &characters(&file))?;
    let mut lines = Vec::new();
    let mut offset = 0;
    for (row, part) in rows.iter().zip(parts.iter().filter(|part| is_leaf(part))) {
        let own = bytes.get(offset..offset + part.size()).ok_or(UNHELD)?;
        let shown: Vec<String> = own.iter().map(|byte| format!("{byte:02x}")).collect();
        lines.push([&offset.to_string(), &shown.join(" "), &row.path, &row.value].map(String::as_str).join("\t"));
        offset += part.size();
    }
    match offset == bytes.len() {
        true => Ok(lines),
        false => Err(UNHELD.into()),
    }
}

/// A row for each leaf that bytes are read as: its path, kind and value.
pub fn read_rows(words: &[u32], names: &Names, variable: u32, bytes: &[u8]) -> Result<Vec<String>, Stop> {
    let (nodes, characters) = read_memory(words, variable, bytes)?.ok_or(Stop::None)?;
    let mut nodes: Vec<Node> = nodes.as_chunks().0.to_vec();
    // What is read has no names: they are those of the variable's own tree.
    for (node, named) in nodes.iter_mut().zip(tree(words, variable)?) {
        node[0] = named[0];
    }
    let file = File::open(words).ok_or(Refused(1))?;
    let rows = tree_rows(file, names, variable, &nodes, &characters)?;
    Ok(rows.into_iter().map(|row| [row.path, row.kind, row.value].join("\t")).collect())
}
