//! `sample FILES ANSWERS FOLDER` chooses files for the stored vectors from
//! FILES, framed files as `generate` writes them from file 0 on, with
//! ANSWERS, the oracle's lines for them, and writes `files.bin`,
//! `answers.bin` and `vectors.txt` into FOLDER.

use files::layout::*;
use files::{frames, text};
use generate::lines::{read_answers, Answer};
use std::collections::HashMap;
use std::fs;
use std::path::Path;
use std::process::ExitCode;

/// How many files of each family are stored.
const OF_EACH_FAMILY: u32 = 16;

/// A file with more nodes in its answers, or with a shape of more nodes, is
/// left out: the Rust has no limit of 2,048 nodes, so that its answer to a
/// file near that limit needn't be document 01's.
const MOST_NODES: usize = 600;
const MOST_SHAPE_NODES: u64 = 1000;

fn main() -> ExitCode {
    match run(&std::env::args().skip(1).collect::<Vec<_>>()) {
        Ok(()) => ExitCode::SUCCESS,
        Err(message) => {
            eprintln!("sample: {message}");
            ExitCode::FAILURE
        }
    }
}

fn run(arguments: &[String]) -> Result<(), String> {
    let [files, answers, folder] = arguments else {
        return Err("usage: sample FILES ANSWERS FOLDER".to_string());
    };
    let files = read_files(files)?;
    let answers = read_answers(answers)?;
    if files.len() != answers.len() {
        return Err("not as many answers as files".to_string());
    }
    let mut stored = HashMap::new();
    let (mut words, mut replies, mut readable) = (Vec::new(), Vec::new(), String::new());
    for (number, (file, answers)) in files.iter().zip(&answers).enumerate() {
        let family = generate::family(number as u64);
        let count = stored.entry(family).or_insert(0);
        if *count == OF_EACH_FAMILY || !is_small(file, answers) {
            continue;
        }
        *count += 1;
        append(&mut words, file)?;
        append(&mut replies, &answer_words(answers)?)?;
        readable.push_str(&readable_file(number, family, file, answers));
    }
    let folder = Path::new(folder);
    write(folder, "files.bin", &words)?;
    write(folder, "answers.bin", &replies)?;
    write(folder, "vectors.txt", readable.as_bytes())
}

fn read_files(path: &str) -> Result<Vec<Vec<u32>>, String> {
    let bytes = fs::read(path).map_err(|error| format!("{path}: {error}"))?;
    let mut input = bytes.as_slice();
    let mut files = Vec::new();
    while let Some(words) = frames::read(&mut input).map_err(|error| error.to_string())? {
        files.push(words);
    }
    Ok(files)
}

/// Whether a file may be stored.
fn is_small(words: &[u32], answers: &[Answer]) -> bool {
    let nodes: usize = answers.iter().map(|answer| answer.nodes.len()).sum();
    !answers.is_empty() && nodes <= MOST_NODES && most_shape_nodes(words) <= MOST_SHAPE_NODES
}

/// The nodes of a file's largest shape.
fn most_shape_nodes(words: &[u32]) -> u64 {
    let file = File::open(words).expect("a generated file");
    let mut nodes: Vec<u64> = Vec::new();
    for number in 0..file.count(SHAPES) {
        let record = file.record(SHAPES, number);
        let of_run = |first: u32, count: u32| first as usize..(first + count) as usize;
        let count = match record[0] {
            11 => of_run(record[1], record[2])
                .map(|field| nodes[file.record(SHAPE_FIELDS, field)[1] as usize])
                .fold(1, u64::saturating_add),
            12 => of_run(record[2], record[3])
                .map(|place| {
                    let bounds = file.record(DIMENSIONS, place);
                    (i64::from(bounds[1] as i32) - i64::from(bounds[0] as i32) + 1) as u64
                })
                .fold(nodes[record[1] as usize], u64::saturating_mul),
            _ => 1,
        };
        nodes.push(count);
    }
    nodes.into_iter().max().unwrap_or(0)
}

/// The words of `answers.bin` for one file.
fn answer_words(answers: &[Answer]) -> Result<Vec<u32>, String> {
    let mut words = Vec::new();
    for answer in answers {
        let head: Vec<&str> = answer.head.iter().map(String::as_str).collect();
        let count = answer.nodes.len() as u32;
        match head.as_slice() {
            ["type" | "var", _, "none"] => words.extend([1, 0]),
            ["type" | "var", _, nodes] if *nodes == count.to_string() => words.extend([0, count]),
            ["done", _, "left"] => words.extend([1, 0, 0]),
            ["done", _, "completed", kind, nodes] if *nodes == count.to_string() => {
                let kind = kind.parse().map_err(|_| format!("{head:?}: kind"))?;
                words.extend([0, kind, count]);
            }
            _ => return Err(format!("{head:?} has {count} nodes")),
        }
        for node in &answer.nodes {
            words.extend(node);
        }
    }
    Ok(words)
}

/// A file and its answers as text.
fn readable_file(number: usize, family: &str, words: &[u32], answers: &[Answer]) -> String {
    let file = text::show(words).expect("a generated file");
    let mut readable = format!("# file {number}: {family}\n{file}answers\n");
    for answer in answers {
        readable.push_str(&answer.head.join(" "));
        readable.push('\n');
        for node in &answer.nodes {
            let node: Vec<String> = node.iter().map(u32::to_string).collect();
            readable.push_str(&node.join(" "));
            readable.push('\n');
        }
    }
    readable.push('\n');
    readable
}

fn append(output: &mut Vec<u8>, words: &[u32]) -> Result<(), String> {
    frames::write(output, words).map_err(|error| error.to_string())
}

fn write(folder: &Path, name: &str, bytes: &[u8]) -> Result<(), String> {
    let path = folder.join(name);
    fs::write(&path, bytes).map_err(|error| format!("{}: {error}", path.display()))
}
