//! The answers for one file, and the lines that print them.

use std::collections::BTreeSet;
use std::fmt::Write;

/// Six words: name or 0, kind, then sign, low, high and width.
pub type Node = [u32; 6];

/// A tree's nodes, each head before its parts.
pub type Tree = Vec<Node>;

/// The most nodes that one answer may have.
pub const MOST_NODES: usize = 200_000;

/// An answer has more than `MOST_NODES` nodes.
#[derive(Debug)]
pub struct Huge;

/// What the Rust answers for a file.
#[derive(Debug, Default)]
pub struct Answers {
    /// For each type its default; `None` for none.
    pub types: Vec<Option<Tree>>,
    /// For each variable its value.
    pub variables: Vec<Option<Tree>>,
    /// For each variable its completed initializer; `None` if it is left.
    pub completed: Vec<Option<Completed>>,
    /// Which of the answers without a tree are too large instead of none.
    pub large: Large,
    /// How often the fields of a block were looked for along a circle of
    /// alias bases that has no block record.
    pub circles: u64,
}

/// The types and variables whose work met document 01's limit on trees. The
/// Rust has no such limit: there are some only with the feature `limited`.
#[derive(Clone, Debug, Default, PartialEq)]
pub struct Large {
    pub types: BTreeSet<u32>,
    pub variables: BTreeSet<u32>,
}

/// A completed initializer: its kind and the tree in its value slot.
#[derive(Debug, PartialEq)]
pub struct Completed {
    pub kind: u32,
    pub tree: Tree,
}

impl Answers {
    /// The lines for types, for variables and for completed initializers.
    pub fn lines(&self) -> String {
        let mut lines = String::new();
        print_trees(&mut lines, "type", &self.types, &self.large.types);
        print_trees(&mut lines, "var", &self.variables, &self.large.variables);
        for (number, completed) in self.completed.iter().enumerate() {
            match completed {
                None => push_line(&mut lines, format_args!("done {number} left")),
                Some(Completed { kind, tree }) => {
                    let nodes = tree.len();
                    push_line(
                        &mut lines,
                        format_args!("done {number} completed {kind} {nodes}"),
                    );
                    print_nodes(&mut lines, tree);
                }
            }
        }
        lines
    }
}

fn print_trees(lines: &mut String, what: &str, trees: &[Option<Tree>], large: &BTreeSet<u32>) {
    for (number, tree) in (0..).zip(trees) {
        match tree {
            None if large.contains(&number) => {
                push_line(lines, format_args!("{what} {number} large"))
            }
            None => push_line(lines, format_args!("{what} {number} none")),
            Some(tree) => {
                push_line(lines, format_args!("{what} {number} {}", tree.len()));
                print_nodes(lines, tree);
            }
        }
    }
}

fn print_nodes(lines: &mut String, tree: &Tree) {
    for [name, kind, sign, low, high, width] in tree {
        push_line(
            lines,
            format_args!("{name} {kind} {sign} {low} {high} {width}"),
        );
    }
}

fn push_line(lines: &mut String, line: std::fmt::Arguments) {
    lines.write_fmt(line).expect("a string takes any text");
    lines.push('\n');
}

#[cfg(test)]
mod tests {
    use super::*;

    #[test]
    fn each_answer_has_its_lines() {
        let answers = Answers {
            types: vec![None, Some(vec![[0, 1, 1, 5, 0, 0]]), None],
            variables: vec![Some(vec![[0, 14, 0, 1, 0, 0], [7, 0, 0, 1, 0, 0]]), None],
            completed: vec![
                None,
                Some(Completed {
                    kind: 9,
                    tree: vec![[0, 13, 0, 0, 0, 0]],
                }),
            ],
            large: Large {
                types: BTreeSet::from([2]),
                variables: BTreeSet::from([1]),
            },
            circles: 0,
        };
        let expected = "type 0 none\ntype 1 1\n0 1 1 5 0 0\ntype 2 large\nvar 0 2\n\
                        0 14 0 1 0 0\n7 0 0 1 0 0\nvar 1 large\ndone 0 left\n\
                        done 1 completed 9 1\n0 13 0 0 0 0\n";
        assert_eq!(answers.lines(), expected);
    }
}
