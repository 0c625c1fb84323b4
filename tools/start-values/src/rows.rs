//! A row for every leaf of every variable.

use files::layout::{File, CHARACTERS, VARIABLES};

use crate::library::{check_sheet, write_sheet, Refused};
use crate::names::Names;
use crate::places::{indices, Place, Places};
use crate::sheet::{starts, Start};
use crate::values::{kind, value, Node};

// Kinds of nodes with parts.
const ARRAY: u32 = 13;
const STRUCTURE: u32 = 14;

/// The heading line's columns.
pub const HEADING: [&str; 5] = ["variable", "path", "kind", "value", "state"];

/// What stands in the columns of a row.
#[derive(Clone, Debug, PartialEq, Eq)]
pub struct Row {
    pub variable: String,
    pub path: String,
    pub kind: String,
    pub value: String,
    pub state: &'static str,
}

impl Row {
    pub fn line(&self) -> String {
        [&self.variable, &self.path, &self.kind, &self.value, self.state].join("\t")
    }
}

/// What ends a command.
#[derive(Debug)]
pub enum Stop {
    Refused(Refused),
    /// The variable starts with nothing.
    None,
    Misused(String),
}

impl From<Refused> for Stop {
    fn from(refused: Refused) -> Self {
        Stop::Refused(refused)
    }
}

impl From<String> for Stop {
    fn from(message: String) -> Self {
        Stop::Misused(message)
    }
}

/// The rows of one variable.
struct Walk<'a> {
    /// What the runs of strings are of.
    characters: &'a [u32],
    places: Places<'a>,
    names: &'a Names,
    variable: String,
    rows: Vec<Row>,
}

impl Walk<'_> {
    /// A tree at a path: its head, then its parts.
    fn tree(&mut self, nodes: &mut std::slice::Iter<Node>, place: Place, path: String) -> Result<(), String> {
        let node = nodes.next().expect("the tree is whole");
        match node[1] {
            ARRAY => self.array(nodes, place, path, node[3]),
            STRUCTURE => self.structure(nodes, place, path, node[3]),
            _ => self.leaf(node, path),
        }
    }

    fn array(&mut self, nodes: &mut std::slice::Iter<Node>, place: Place, path: String, count: u32) -> Result<(), String> {
        let (bounds, part) = self.places.array(place);
        for number in 0..count {
            let written = indices(&bounds, u64::from(count), u64::from(number));
            self.tree(nodes, part, format!("{path}{written}"))?;
        }
        Ok(())
    }

    fn structure(&mut self, nodes: &mut std::slice::Iter<Node>, place: Place, path: String, count: u32) -> Result<(), String> {
        for _ in 0..count {
            let name = nodes.as_slice().first().expect("the tree is whole")[0];
            let called = self.names.name(name)?;
            let part = self.places.part(place, name);
            self.tree(nodes, part, format!("{path}.{called}"))?;
        }
        Ok(())
    }

    fn leaf(&mut self, node: &Node, path: String) -> Result<(), String> {
        self.rows.push(Row {
            variable: self.variable.clone(),
            path,
            kind: kind(node).unwrap_or_default().to_string(),
            value: value(self.characters, self.names, node)?,
            state: "value",
        });
        Ok(())
    }
}

/// The row of a variable without a value.
fn without_value(variable: String, state: &'static str) -> Row {
    Row {
        path: variable.clone(),
        variable,
        kind: String::new(),
        value: String::new(),
        state,
    }
}

/// What a variable is called; one without a name has its number.
fn called(file: &File, names: &Names, number: u32) -> Result<String, String> {
    match file.record(VARIABLES, number as usize)[0] {
        0 => Ok(format!("variable {number}")),
        name => names.name(name),
    }
}

/// The characters of a file.
pub fn characters(file: &File) -> Vec<u32> {
    (0..file.count(CHARACTERS)).map(|number| file.record(CHARACTERS, number)[0]).collect()
}

/// The rows of a variable's tree, a row for each leaf.
pub fn tree_rows(file: File, names: &Names, number: u32, tree: &[Node], characters: &[u32]) -> Result<Vec<Row>, Stop> {
    let mut walk = Walk {
        characters,
        places: Places::of(file),
        names,
        variable: called(&file, names, number)?,
        rows: Vec::new(),
    };
    let place = walk.places.of_variable(number);
    let path = walk.variable.clone();
    walk.tree(&mut tree.iter(), place, path)?;
    Ok(walk.rows)
}

/// The rows of a file, from a sheet that the proved check has passed.
pub fn rows(words: &[u32], names: &Names) -> Result<Vec<Row>, Stop> {
    let sheet = write_sheet(words)?;
    check_sheet(words, &sheet)?;
    let file = File::open(words).expect("the file is accepted");
    let characters = characters(&file);
    let mut rows = Vec::new();
    for (number, start) in (0..).zip(starts(&file, &sheet)) {
        match start {
            Start::Tree(nodes) => rows.extend(tree_rows(file, names, number, &nodes, &characters)?),
            Start::None => rows.push(without_value(called(&file, names, number)?, "none")),
            Start::TooLarge => rows.push(without_value(called(&file, names, number)?, "too large")),
        }
    }
    Ok(rows)
}
