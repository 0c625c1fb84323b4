//! `memories FOLDER EXAMPLES`: the input of the program `memory_vectors`, for
//! the texts of FOLDER, whose bytes stand beside them as they were written by
//! hand, for the texts of EXAMPLES, and for generated files: each file with
//! what start memory answers for its variables (vectors/README.md has the
//! layout). Words go to standard output, what that program prints to standard
//! error: how many answers are right, one for each variable and each read.

use std::fs;
use std::io::{self, Write};
use std::path::{Path, PathBuf};

use answers::{Answers, Tree};
use files::layout::{File, TYPES, VARIABLES};
use files::memory::{self, parts::parts};
use files::text::assemble;
use files::verdict::verdict;
use generate::bytes::{damaged, invented};
use generate::random::Random;
use generate::Size;
use oracle::cut::counted;
use oracle::outcome::{outcome, Outcome};

/// Behind the variables of a file.
const SENTINEL: u32 = 0x5E17_1E57;

/// The writer's answer for none.
const NO_BYTES: u64 = 0xFFFF_FFFF;

/// Generated files are added until there are so many files or words.
const MOST_FILES: usize = 200;
const MOST_WORDS: usize = 72_000;

/// What the program `memory_vectors` has room for.
const MOST_TYPES: usize = 20;
const MOST_FILE_WORDS: usize = 300;
const MOST_BYTES: usize = 100;
const MOST_NODES: usize = 30;

/// Of bytes next to a tree's own so many are stored.
const DAMAGED: usize = 2;

type Error = Box<dyn std::error::Error>;

/// The words so far, and how many answers they hold.
#[derive(Default)]
struct Stored {
    words: Vec<u32>,
    answers: u64,
    files: usize,
}

fn refused(number: u32) -> u64 {
    u64::from(number) << 32
}

/// What a variable starts with: a tree, or the answer without one.
fn start(answers: &Answers, variable: u32) -> Result<&Tree, u32> {
    match &answers.variables[variable as usize] {
        Some(tree) => Ok(tree),
        None if answers.large.variables.contains(&variable) => Err(8),
        None => Err(0),
    }
}

impl Stored {
    fn code(&mut self, code: u64) {
        self.words.extend([code as u32, (code >> 32) as u32]);
        self.answers += 1;
    }

    /// A list after its count.
    fn list(&mut self, words: impl ExactSizeIterator<Item = u32>) {
        self.words.push(words.len() as u32);
        self.words.extend(words);
    }

    /// Bytes, the answer, nodes, characters.
    fn read(&mut self, bytes: &[u8], right: Result<(Vec<u32>, Vec<u32>), u64>) {
        self.list(bytes.iter().map(|byte| u32::from(*byte)));
        let (code, (nodes, characters)) = match right {
            Ok(read) => (read.0.len() as u64 / 6, read),
            Err(code) => (code, Default::default()),
        };
        self.code(code);
        self.list(nodes.into_iter());
        self.list(characters.into_iter());
    }

    /// The variable's number, what the writer answers, the bytes, and reads.
    fn variable(&mut self, random: &mut Random, file: &File, variable: u32, start: Result<&Tree, u32>) {
        let written = match start {
            Ok(tree) => memory::write(file, variable, tree).map_err(refused),
            Err(0) => Err(NO_BYTES),
            Err(number) => Err(refused(number)),
        };
        self.words.push(variable);
        self.code(written.as_ref().map_or_else(|code| *code, |bytes| bytes.len() as u64));
        self.list(written.iter().flatten().map(|byte| u32::from(*byte)).collect::<Vec<_>>().into_iter());
        let reads = reads(random, file, variable, start, written.ok());
        self.words.push(reads.len() as u32);
        for bytes in reads {
            let right = match start {
                Ok(tree) => memory::read(file, variable, tree, &bytes).map_err(refused),
                Err(number) => Err(refused(number)),
            };
            self.read(&bytes, right);
        }
    }

    /// A file's words, its variables, and a sentinel; the variables whose bytes
    /// or nodes are many are left out. One that is not there stands behind them.
    fn file(&mut self, random: &mut Random, words: &[u32], answers: &Answers) {
        let file = File::open(words).expect("it is a file");
        let all = 0..file.count(VARIABLES) as u32;
        let variables: Vec<u32> = all.filter(|variable| is_small(&file, *variable, answers)).collect();
        self.list(words.iter().copied());
        self.words.push(variables.len() as u32 + 1);
        for variable in variables {
            self.variable(random, &file, variable, start(answers, variable));
        }
        let past = file.count(VARIABLES) as u32 + random.below(2);
        self.variable(random, &file, past, Err(7));
        self.words.push(SENTINEL);
        self.files += 1;
    }
}

/// The bytes that are read: the tree's own, others of its parts, and some next
/// to either.
fn reads(random: &mut Random, file: &File, variable: u32, start: Result<&Tree, u32>, own: Option<Vec<u8>>) -> Vec<Vec<u8>> {
    let Ok(tree) = start else {
        return vec![vec![0; random.below(3) as usize]];
    };
    let mut reads: Vec<Vec<u8>> = own.into_iter().collect();
    if let Ok(parts) = parts(file, variable, tree) {
        reads.push(invented(random, &parts));
    }
    let mut next = damaged(random, reads.last().map_or(&[0, 0], |bytes| bytes));
    random.shuffle(&mut next);
    reads.extend(next.into_iter().take(DAMAGED));
    reads
}

/// Whether the bytes and the nodes of a variable are few.
fn is_small(file: &File, variable: u32, answers: &Answers) -> bool {
    let Ok(tree) = start(answers, variable) else {
        return true;
    };
    let parts = parts(file, variable, tree).unwrap_or_default();
    let mut random = Random::new(&[0]);
    tree.len() <= MOST_NODES && invented(&mut random, &parts).len() <= MOST_BYTES
}

/// The Rust's answers for a file that is accepted, with the characters cut.
fn answered(words: &[u32]) -> Option<Answers> {
    match outcome(words) {
        Outcome::Answered(answers) if verdict(words) == 0 => {
            let counted = counted(words, &answers);
            Some(counted.unwrap_or_else(|message| panic!("{message}: {words:?}")))
        }
        _ => None,
    }
}

/// What a variable's line says beside a text: bytes, `none` or `refused N`.
fn by_hand(line: &str) -> Result<(u32, Result<Vec<u8>, u64>), Error> {
    let (variable, said) = line.split_once(' ').unwrap_or((line, ""));
    let right = match said.split_once(' ') {
        None if said == "none" => Err(NO_BYTES),
        Some(("refused", number)) => Err(refused(number.parse()?)),
        _ => Ok(said.split_whitespace().map(|byte| u8::from_str_radix(byte, 16)).collect::<Result<_, _>>()?),
    };
    Ok((variable.parse()?, right))
}

/// Whether a text's variables are written as it was worked out by hand.
fn check_by_hand(path: &Path, words: &[u32], answers: &Answers) -> Result<(), Error> {
    let file = File::open(words).ok_or("no file")?;
    for line in fs::read_to_string(path.with_extension("bytes"))?.lines() {
        let (variable, expected) = by_hand(line)?;
        let written = match start(answers, variable) {
            Ok(tree) => memory::write(&file, variable, tree).map_err(refused),
            Err(0) => Err(NO_BYTES),
            Err(number) => Err(refused(number)),
        };
        if written != expected {
            return Err(format!("{}: {line}, and not {written:x?}", path.display()).into());
        }
    }
    Ok(())
}

/// The texts of a folder, by their names.
fn texts(folder: &str) -> Result<Vec<PathBuf>, Error> {
    let entries = fs::read_dir(folder)?.collect::<Result<Vec<_>, _>>()?;
    let mut paths: Vec<PathBuf> = entries.into_iter().map(|entry| entry.path()).collect();
    paths.retain(|path| path.extension().is_some_and(|extension| extension == "txt"));
    paths.sort();
    Ok(paths)
}

fn is_stored(words: &[u32]) -> bool {
    let types = File::open(words).map_or(0, |file| file.count(TYPES));
    words.len() <= MOST_FILE_WORDS && types <= MOST_TYPES
}

fn main() -> Result<(), Error> {
    let arguments: Vec<String> = std::env::args().skip(1).collect();
    let [folder, examples] = &arguments[..] else {
        return Err("usage: memories FOLDER EXAMPLES".into());
    };
    let mut stored = Stored::default();
    let mut random = Random::new(&[1]);
    for path in texts(folder)? {
        let words = assemble(&fs::read_to_string(&path)?)?;
        let answers = answered(&words).ok_or(format!("{}: it is not accepted", path.display()))?;
        check_by_hand(&path, &words, &answers)?;
        stored.file(&mut random, &words, &answers);
    }
    for path in texts(examples)? {
        let words = assemble(&fs::read_to_string(&path)?)?;
        if let Some(answers) = answered(&words).filter(|_| is_stored(&words)) {
            stored.file(&mut random, &words, &answers);
        }
    }
    for number in 0.. {
        if stored.files >= MOST_FILES || stored.words.len() >= MOST_WORDS {
            break;
        }
        let words = generate::file(1, number, Size::Memory);
        if let Some(answers) = answered(&words).filter(|_| is_stored(&words)) {
            stored.file(&mut random, &words, &answers);
        }
    }
    eprintln!("{}", stored.answers);
    let bytes: Vec<u8> = stored.words.iter().flat_map(|word| word.to_le_bytes()).collect();
    Ok(io::stdout().write_all(&bytes)?)
}
