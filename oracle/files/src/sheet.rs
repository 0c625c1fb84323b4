//! Start sheets as document 01 describes them: which types a type uses, the
//! lowest ranks, the words of a sheet, and which of the refusals 11 to 13 a
//! sheet meets first.

use crate::layout::*;
use crate::memory::STRING;

/// The fixed words of each line: a type's without its rank.
#[derive(Clone, Debug, Default, PartialEq, Eq)]
pub struct Lines {
    pub types: Vec<Vec<u32>>,
    pub variables: Vec<Vec<u32>>,
    pub completed: Vec<Vec<u32>>,
}

/// Words of a node.
const NODE: usize = 6;

// Uses.

/// The type that a link or a name leads to; none where it is 0 or inline.
fn named(word: u32) -> Option<u32> {
    match word {
        0 | INLINE => None,
        link => Some(link - 1),
    }
}

/// The records of a run.
fn run<'a>(file: &File<'a>, section: usize, first: u32, count: u32) -> Vec<&'a [u32]> {
    let numbers = (0..count).map(|place| (first + place) as usize);
    numbers.map(|number| file.record(section, number)).collect()
}

/// The types that an initializer names: its named type and its element type.
fn of_initializer(file: &File, number: u32) -> Vec<u32> {
    let record = file.record(INITIALIZERS, number as usize);
    [record[1], record[2]].into_iter().filter_map(named).collect()
}

/// The types that type `number` uses, some more than once.
pub fn uses(file: &File, number: u32) -> Vec<u32> {
    let record = file.record(TYPES, number as usize);
    let [base, element, referenced, declaration, name, start] = record[1..7] else {
        unreachable!("a type record has eleven words");
    };
    let mut used: Vec<u32> = [base, element].into_iter().filter_map(named).collect();
    // The referenced type is used only as something else, and in declaration 6
    // not as the named type.
    if declaration != 6 || name != referenced {
        used.extend(named(name));
    }
    if declaration == 1 {
        used.extend(of_initializer(file, start - 1));
    }
    if declaration == 5 {
        for element in run(file, ELEMENTS, record[7], record[8]) {
            used.extend(of_initializer(file, element[1]));
        }
    }
    if declaration == 9 {
        for variable in run(file, VARIABLES, record[7], record[8]) {
            used.extend(named(variable[2]));
            used.extend(of_initializer(file, variable[3]));
        }
    }
    for field in run(file, BLOCK_FIELDS, record[9], record[10]) {
        used.extend(named(field[1]));
    }
    used
}

// Ranks.

/// The lowest ranks from 0 that rise along every use; none where uses run in a
/// circle. A type's rank is the number of the round in which all that it uses
/// have one.
pub fn lowest_ranks(file: &File) -> Option<Vec<u32>> {
    let used: Vec<Vec<u32>> = (0..file.count(TYPES) as u32).map(|number| uses(file, number)).collect();
    let mut ranks = vec![None; used.len()];
    for round in 0..=used.len() as u32 {
        let ready: Vec<usize> = (0..used.len())
            .filter(|&number| ranks[number].is_none())
            .filter(|&number| used[number].iter().all(|&other| ranks[other as usize].is_some()))
            .collect();
        if ready.is_empty() {
            break;
        }
        for number in ready {
            ranks[number] = Some(round);
        }
    }
    ranks.into_iter().collect()
}

// The words of a sheet.

/// A section's count, and its lines one behind the other.
fn section(words: &mut Vec<u32>, lines: impl ExactSizeIterator<Item = Vec<u32>>) {
    words.push(lines.len() as u32);
    for line in lines {
        words.extend(line);
    }
}

/// Leaves the characters cut out of the words of nodes: a string's last word is
/// its width plus 2 × those (document 02, Q-2).
pub fn leave_out_cut(nodes: &mut [u32]) {
    for node in nodes.chunks_exact_mut(NODE).filter(|node| node[1] == STRING) {
        node[NODE - 1] %= 2;
    }
}

/// Where the last words of strings stand in the sheet of these lines.
pub fn last_words(lines: &Lines) -> Vec<usize> {
    let mut places = Vec::new();
    let mut at = 0;
    for (lines, rank, head) in [(&lines.types, 1, 2), (&lines.variables, 0, 2), (&lines.completed, 0, 3)] {
        at += 1;
        for line in lines {
            at += rank;
            let strings = (head..line.len()).step_by(NODE).filter(|node| line[node + 1] == STRING);
            places.extend(strings.map(|node| at + node + NODE - 1));
            at += line.len();
        }
    }
    places
}

/// The sheet of these lines with these ranks.
pub fn sheet(lines: &Lines, ranks: &[u32]) -> Vec<u32> {
    let mut words = Vec::new();
    let types = lines.types.iter().zip(ranks);
    section(&mut words, types.map(|(line, rank)| [&[*rank], &line[..]].concat()));
    section(&mut words, lines.variables.iter().cloned());
    section(&mut words, lines.completed.iter().cloned());
    words
}

// Refusals 11 to 13.

/// Where the tree that begins at `at` ends; none where its words end before, or
/// a kind is above 14.
fn tree_end(words: &[u32], at: usize) -> Option<usize> {
    let mut end = at;
    let mut trees = 1u64;
    while trees > 0 {
        let node = words.get(end..end + NODE)?;
        let parts = match node[1] {
            0..=12 => 0,
            13 | 14 => u64::from(node[3]),
            _ => return None,
        };
        trees = trees - 1 + parts;
        end += NODE;
    }
    Some(end)
}

/// The three sections.
#[derive(Clone, Copy, PartialEq)]
enum Part {
    Types,
    Variables,
    Completed,
}

/// Where the line that begins at `at` ends; none where it is no line.
fn line_end(words: &[u32], part: Part, at: usize) -> Option<usize> {
    let head = if part == Part::Variables { 2 } else { 3 };
    let line = words.get(at..at + head)?;
    let state = if part == Part::Types { line[1] } else { line[0] };
    let most = if part == Part::Completed { 1 } else { 2 };
    let count = line[head - 1] as usize;
    let is_empty = count == 0 && (part != Part::Completed || line[1] == 0);
    match state {
        0 => {
            let end = tree_end(words, at + head)?;
            (end - at - head == count.checked_mul(NODE)?).then_some(end)
        }
        state if state <= most && is_empty => Some(at + head),
        _ => None,
    }
}

/// The lines of a section that begins at `at`, and where it ends.
fn read_section(words: &[u32], part: Part, count: usize, at: usize) -> Option<(Vec<Vec<u32>>, usize)> {
    if *words.get(at)? as usize != count {
        return None;
    }
    let mut lines = Vec::new();
    let mut begin = at + 1;
    for _ in 0..count {
        let end = line_end(words, part, begin)?;
        lines.push(words[begin..end].to_vec());
        begin = end;
    }
    Some((lines, begin))
}

/// The lines of a sheet, with the ranks.
fn read(file: &File, words: &[u32]) -> Option<Lines> {
    let [types, variables] = [TYPES, VARIABLES].map(|section| file.count(section));
    let (types, at) = read_section(words, Part::Types, types, 0)?;
    let (lines, at) = read_section(words, Part::Variables, variables, at)?;
    let (completed, at) = read_section(words, Part::Completed, variables, at)?;
    (at == words.len()).then_some(Lines {
        types,
        variables: lines,
        completed,
    })
}

/// The first of the refusals 11 to 13 that the sheet `words` of an accepted
/// file meets, or 0; `right` has the fixed words of its lines.
pub fn check(file: &File, words: &[u32], right: &Lines) -> u32 {
    let Some(lines) = read(file, words) else {
        return 11;
    };
    let rank = |number: u32| lines.types[number as usize][0];
    let rise = |number: u32| uses(file, number).into_iter().all(|other| rank(other) < rank(number));
    if !(0..file.count(TYPES) as u32).all(rise) {
        return 12;
    }
    let types = lines.types.iter().map(|line| line[1..].to_vec()).collect();
    match (Lines { types, ..lines }) == *right {
        true => 0,
        false => 13,
    }
}

#[cfg(test)]
mod tests;
