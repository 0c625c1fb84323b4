//! `texts FILES REFUSALS TEXT-FILE`: the input of the program `text_vectors`.
//! For each run the bytes that the sheet program reads, after their count, and
//! those that it prints, after theirs. What `text_vectors` prints goes to
//! standard error: how many runs there are.
//!
//! The runs: some of the framed FILES and one that is in a circle, the first of
//! each refusal of the framed REFUSALS, the file in text form, and what document
//! 01 says of bytes: too many, no whole words, too long a sheet, too few work
//! words.

use std::env;
use std::fs;
use std::io::{self, Write};

use files::frames;
use files::layout::*;
use files::records::Records;
use files::text::assemble;
use files::verdict::verdict;
use oracle::right::{right, Right};

/// The most bytes of a file, and words of a sheet.
const MOST_BYTES: usize = 32_768;
const MOST_WORDS: usize = 8192;

/// Every so many of the stored files are run.
const EVERY: usize = 16;

/// Words of a node.
const NODE: usize = 6;

struct Run {
    bytes: Vec<u8>,
    text: String,
}

fn bytes(words: &[u32]) -> Vec<u8> {
    words.iter().flat_map(|word| word.to_le_bytes()).collect()
}

/// Words on a line, one space between two.
fn line(words: &[u32]) -> String {
    let words: Vec<String> = words.iter().map(u32::to_string).collect();
    words.join(" ") + "\n"
}

/// A record's head on a line, then each node.
fn record(head: usize, words: &[u32]) -> String {
    let nodes: String = words[head..].chunks(NODE).map(line).collect();
    line(&words[..head]) + &nodes
}

fn sheet_text(right: &Right, ranks: &[u32]) -> String {
    let lines = &right.lines;
    let types = lines.types.iter().zip(ranks);
    let types: String = types.map(|(words, rank)| record(3, &[&[*rank], &words[..]].concat())).collect();
    let variables: String = lines.variables.iter().map(|words| record(2, words)).collect();
    let completed: String = lines.completed.iter().map(|words| record(3, words)).collect();
    let [many, each] = [lines.types.len(), lines.variables.len()].map(|count| line(&[count as u32]));
    many + &types + &each + &variables + &each + &completed
}

/// What is printed for a file that the program lends enough work words for.
fn text(words: &[u32]) -> String {
    match verdict(words) {
        0 => {}
        number => return format!("refused {number}\n"),
    }
    let right = right(words).expect("the Rust answers");
    match &right.ranks {
        None => "refused 9\n".to_string(),
        Some(ranks) if right.sheet(ranks).len() > MOST_WORDS => "long\n".to_string(),
        Some(ranks) => sheet_text(&right, ranks),
    }
}

fn run(words: &[u32]) -> Run {
    Run {
        bytes: bytes(words),
        text: text(words),
    }
}

fn said(bytes: Vec<u8>, text: &str) -> Run {
    Run {
        bytes,
        text: text.to_string(),
    }
}

/// Files, each after its count and with so many bytes behind it.
fn framed(path: &str, behind: usize) -> io::Result<Vec<Vec<u32>>> {
    let mut input = &fs::read(path)?[..];
    let mut all = Vec::new();
    while let Some(words) = frames::read(&mut input)? {
        all.push(words);
        input = &input[behind..];
    }
    Ok(all)
}

/// Arrays of INT: so many places, so many repeats in each other.
fn array(places: u32, repeats: u32) -> Vec<u32> {
    let mut records = Records::default();
    records.push(SETTINGS, &[254]);
    records.push(SHAPES, &[1, 16, 0, 0, 0]);
    records.push(SHAPES, &[12, 0, 0, 1, 0]);
    records.push(DIMENSIONS, &[1, places]);
    records.push(TYPES, &[0, 0, 0, 0, 0, 0, 0, 0, 0, INLINE, 0]);
    records.push(TYPES, &[1, 0, 1, 0, 0, 0, 0, 0, 0, INLINE, 0]);
    records.push(CONSTANTS, &[1, 0, 5, 0, 0]);
    let mut entry = records.push(ENTRIES, &[0, 0, 0, 0]);
    for _ in 0..repeats {
        entry = records.push(ENTRIES, &[6, 0, 1, entry + 1]);
    }
    let start = records.push(INITIALIZERS, &[9, 2, 0, 0, entry, 1, 0, 0]);
    records.push(VARIABLES, &[1, 4, 2, start]);
    records.words()
}

/// What document 01 says of bytes, of too long a sheet and of too few words.
fn by_hand() -> Vec<Run> {
    let small = array(3, 0);
    let and = |more: &[u8]| [&bytes(&small)[..], more].concat();
    vec![
        said(vec![0; MOST_BYTES + 1], "long\n"),
        said(vec![0; MOST_BYTES + 4], "long\n"),
        said(vec![0; MOST_BYTES], "refused 1\n"),
        said(vec![], "refused 1\n"),
        said(and(&[0]), "refused 1\n"),
        said(and(&[0, 0, 0]), "refused 1\n"),
        run(&small),
        said(bytes(&array(2047, 0)), "long\n"),
        run(&array(1, 60)),
        // 72 levels of entries and two of shapes; the program lends 69.
        said(bytes(&array(1, 71)), "refused 10\n"),
    ]
}

fn main() -> io::Result<()> {
    let arguments: Vec<String> = env::args().skip(1).collect();
    let [files, refusals, example] = &arguments[..] else {
        return Err(io::Error::other("usage: texts FILES REFUSALS TEXT-FILE"));
    };
    let stored = framed(files, 0)?;
    // The refusal itself stands behind each.
    let refused = framed(refusals, 4)?;
    let mut runs = by_hand();
    runs.extend((1..=6).filter_map(|number| refused.iter().find(|words| verdict(words) == number)).map(|words| run(words)));
    runs.extend(stored.iter().find(|words| right(words).is_some_and(|right| right.ranks.is_none())).map(|words| run(words)));
    runs.extend(stored.iter().step_by(EVERY).map(|words| run(words)));
    runs.push(run(&assemble(&fs::read_to_string(example)?).map_err(io::Error::other)?));
    let mut output = io::stdout().lock();
    for run in &runs {
        for part in [&run.bytes[..], run.text.as_bytes()] {
            output.write_all(&(part.len() as u32).to_le_bytes())?;
            output.write_all(part)?;
        }
    }
    eprintln!("{}", runs.len());
    output.flush()
}
