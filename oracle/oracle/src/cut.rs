//! The characters cut from each string of the Rust's answers (document 02,
//! Q-2), counted by the Rust itself: its strings have a width and don't say
//! how long the literal was that they come from.
//!
//! It is asked once more about the same file in which each literal is a single
//! character that names its constant, and no string place is without room for
//! one. There the same node leads to the literal; what that has more than the
//! string was cut.

use std::collections::BTreeSet;

use answers::{Answers, Completed, Node, Tree};
use files::layout::{File, CHARACTERS, CONSTANTS, INITIALIZERS, SHAPES};
use files::memory::STRING;
use files::records::Records;

use crate::outcome::{outcome, Outcome};

/// The kinds of a string's shape and initializer.
const STRING_SHAPE: u32 = 9;
const STRING_INITIALIZER: u32 = 4;

/// The length word of a place for no characters: 1 + its length.
const NO_ROOM: u32 = 1;

/// `answers`, the Rust's own for the file `words`, with the characters cut: a
/// string's last word is its width plus 2 × those. An error where the Rust
/// answers otherwise for literals of one character.
pub fn counted(words: &[u32], answers: &Answers) -> Result<Answers, String> {
    let file = File::open(words).ok_or("not a file")?;
    let Outcome::Answered(named) = outcome(&naming(&file)) else {
        return Err("no answer for literals of one character".to_string());
    };
    if answers.large != named.large {
        return Err("literals of one character: others are too large".to_string());
    }
    Ok(Answers {
        types: all(&answers.types, &named.types, |own, named| tree(&file, own, named))?,
        variables: all(&answers.variables, &named.variables, |own, named| tree(&file, own, named))?,
        completed: all(&answers.completed, &named.completed, |own, named| completed(&file, own, named))?,
        large: answers.large.clone(),
        circles: answers.circles,
    })
}

/// The words of `file` with each string constant that isn't empty as the one
/// character of the constant's number.
fn naming(file: &File) -> Vec<u32> {
    let mut records = Records::of(file);
    let constants = records.sections[CONSTANTS].iter_mut();
    for (number, constant) in (0..).zip(constants) {
        if constant[0] == STRING && constant[3] > 0 {
            constant[2..4].copy_from_slice(&[number, 1]);
        }
    }
    let characters = file.count(CHARACTERS).max(file.count(CONSTANTS));
    records.sections[CHARACTERS].resize(characters, vec![0]);
    give_room(&mut records);
    records.words()
}

/// Gives places for no characters a length that no other place has: the Rust
/// compares the types of places, so other lengths must stay others.
fn give_room(records: &mut Records) {
    let used: BTreeSet<u32> = length_words(records).map(|word| *word).collect();
    let unused = (NO_ROOM + 1..).find(|word| !used.contains(word));
    let unused = unused.expect("a file has fewer places than there are lengths");
    for word in length_words(records).filter(|word| **word == NO_ROOM) {
        *word = unused;
    }
}

/// The length words of all string places.
fn length_words(records: &mut Records) -> impl Iterator<Item = &mut u32> {
    let (front, back) = records.sections.split_at_mut(INITIALIZERS);
    let shapes = front[SHAPES].iter_mut().filter(|shape| shape[0] == STRING_SHAPE);
    let initializers = back[0].iter_mut().filter(|initializer| initializer[0] == STRING_INITIALIZER);
    let of_initializers = initializers.map(|initializer| &mut initializer[6]);
    shapes.map(|shape| &mut shape[1]).chain(of_initializers)
}

/// Each answer with the one to the same question.
fn all<T>(
    own: &[Option<T>],
    named: &[Option<T>],
    counted: impl Fn(&T, &T) -> Option<T>,
) -> Result<Vec<Option<T>>, String> {
    let pairs = own.iter().zip(named).enumerate();
    let counted = pairs.map(|(number, pair)| match pair {
        (Some(own), Some(named)) => counted(own, named).map(Some).ok_or(number),
        (None, None) => Ok(None),
        _ => Err(number),
    });
    let counted: Result<Vec<_>, usize> = counted.collect();
    counted.map_err(|number| format!("answer {number} is another for literals of one character"))
}

fn completed(file: &File, own: &Completed, named: &Completed) -> Option<Completed> {
    let tree = tree(file, &own.tree, &named.tree)?;
    (own.kind == named.kind).then_some(Completed { kind: own.kind, tree })
}

fn tree(file: &File, own: &Tree, named: &Tree) -> Option<Tree> {
    let nodes = own.iter().zip(named).map(|(own, named)| node(file, own, named));
    let nodes: Option<Tree> = nodes.collect();
    nodes.filter(|_| own.len() == named.len())
}

/// The node `own` with the characters cut, by the node `named` in its place;
/// none where these aren't of one literal.
fn node(file: &File, own: &Node, named: &Node) -> Option<Node> {
    let [name, kind, sign, first, kept, width] = *own;
    if kind != STRING {
        return (own == named).then_some(*own);
    }
    let (begin, many) = literal(file, named)?;
    let is_its_front = kept <= many && first == if kept == 0 { 0 } else { begin };
    let is_same = *named == [name, kind, sign, named[3], named[4], width] && is_its_front;
    is_same.then(|| [name, kind, sign, first, kept, width + 2 * (many - kept)])
}

/// The run of characters of the literal that the string `named` comes from.
fn literal(file: &File, named: &Node) -> Option<(u32, u32)> {
    match named[4] {
        0 => Some((0, 0)),
        1 => {
            let constant = file.record(CONSTANTS, named[3] as usize);
            Some((constant[2], constant[3]))
        }
        _ => None,
    }
}

#[cfg(test)]
mod tests;
