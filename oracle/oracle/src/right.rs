//! What is right for a file by documents 01 and 02 and the Rust: the fixed
//! words of its lines, and the lowest ranks.

use answers::{Answers, Completed, Tree};
use files::layout::{File, TYPES, VARIABLES};
use files::sheet::{lowest_ranks, sheet, Lines};

use crate::cut::counted;
use crate::outcome::{outcome, Outcome};

pub struct Right {
    /// With the characters cut (cut.rs).
    pub lines: Lines,
    /// The Rust's own, whose strings have a width only.
    pub own: Lines,
    /// None where uses run in a circle.
    pub ranks: Option<Vec<u32>>,
}

/// State, count and nodes.
fn line(tree: &Option<Tree>, is_large: bool) -> Vec<u32> {
    match tree {
        Some(nodes) => [&[0, nodes.len() as u32], &nodes.concat()[..]].concat(),
        None => vec![1 + u32::from(is_large), 0],
    }
}

/// State, the initializer's kind, count and nodes.
fn completed_line(completed: &Option<Completed>) -> Vec<u32> {
    match completed {
        Some(Completed { kind, tree }) => [&[0, *kind, tree.len() as u32], &tree.concat()[..]].concat(),
        None => vec![1, 0, 0],
    }
}

fn lines(file: &File, answers: &Answers) -> Lines {
    let large = &answers.large;
    let types = 0..file.count(TYPES);
    let variables = 0..file.count(VARIABLES);
    Lines {
        types: types.map(|n| line(&answers.types[n], large.types.contains(&(n as u32)))).collect(),
        variables: variables.map(|n| line(&answers.variables[n], large.variables.contains(&(n as u32)))).collect(),
        completed: answers.completed.iter().map(completed_line).collect(),
    }
}

/// What is right for `words`; none where the Rust has no answer.
pub fn right(words: &[u32]) -> Option<Right> {
    let Outcome::Answered(answers) = outcome(words) else {
        return None;
    };
    let file = File::open(words)?;
    let counted = counted(words, &answers).unwrap_or_else(|message| panic!("{message}: {words:?}"));
    Some(Right {
        lines: lines(&file, &counted),
        own: lines(&file, &answers),
        ranks: lowest_ranks(&file),
    })
}

impl Right {
    /// The sheet with these ranks.
    pub fn sheet(&self, ranks: &[u32]) -> Vec<u32> {
        sheet(&self.lines, ranks)
    }
}
