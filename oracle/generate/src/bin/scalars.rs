//! `scalars ask` writes framed files that ask the Rust what each constant
//! gives a place of each shape, for the directed pairs. `scalars store ANSWERS
//! FOLDER` takes the oracle's lines for them and writes into FOLDER the
//! stored conversions, `stdin`; how many they are, `stdout`; and for each
//! shape how many constants it takes, `scalars.txt`.

use files::frames;
use generate::lines::{read_answers, Answer};
use generate::pairs::Pairs;
use std::fmt::Write as _;
use std::fs;
use std::io::Write as _;
use std::path::Path;
use std::process::ExitCode;

/// What the words of a lent slice are before a conversion, and still are
/// where it gives none.
const LENT: u32 = 0xA5A5_A5A5;

/// What a constant gives a place, or none.
type Value = Option<[u32; 6]>;

fn main() -> ExitCode {
    let arguments: Vec<String> = std::env::args().skip(1).collect();
    let arguments: Vec<&str> = arguments.iter().map(String::as_str).collect();
    let result = match arguments[..] {
        ["ask"] => ask(),
        ["store", answers, folder] => store(answers, Path::new(folder)),
        _ => Err("usage: scalars ask | scalars store ANSWERS FOLDER".to_string()),
    };
    match result {
        Ok(()) => ExitCode::SUCCESS,
        Err(message) => {
            eprintln!("scalars: {message}");
            ExitCode::FAILURE
        }
    }
}

fn ask() -> Result<(), String> {
    let mut output = std::io::stdout().lock();
    for question in Pairs::directed().iter().flat_map(Pairs::questions) {
        frames::write(&mut output, &question).map_err(|error| error.to_string())?;
    }
    output.flush().map_err(|error| error.to_string())
}

fn store(answers: &str, folder: &Path) -> Result<(), String> {
    let mut answers = read_answers(answers)?.into_iter();
    let (mut stored, mut count, mut table) = (Vec::new(), 0, String::new());
    for pairs in Pairs::directed() {
        let questions = pairs.questions().len();
        let values = values(answers.by_ref().take(questions).flatten())?;
        if values.len() != pairs.all().len() {
            return Err("not as many values as pairs".to_string());
        }
        count += values.len();
        stored.extend(stored_words(&pairs, &values));
        table.push_str(&readable(&pairs, &values));
    }
    let bytes: Vec<u8> = stored.iter().flat_map(|word| word.to_le_bytes()).collect();
    write(folder, "stdin", &bytes)?;
    write(folder, "stdout", format!("{count}\n").as_bytes())?;
    write(folder, "scalars.txt", table.as_bytes())
}

/// The values of the variables among the oracle's answers.
fn values(answers: impl Iterator<Item = Answer>) -> Result<Vec<Value>, String> {
    answers
        .filter(|answer| answer.head[0] == "var")
        .map(
            |answer| match (answer.head[2].as_str(), &answer.nodes[..]) {
                ("none", []) => Ok(None),
                ("1", [node]) => Ok(Some(*node)),
                _ => Err(format!("{:?} is no scalar", answer.head)),
            },
        )
        .collect()
}

/// A file after its count; then, after their number, its pairs: shape,
/// constant, 0 for a value or 1 for none, and what the first six words of the
/// lent slice hold afterwards.
fn stored_words(pairs: &Pairs, values: &[Value]) -> Vec<u32> {
    let file = pairs.words();
    let mut words = vec![file.len() as u32];
    words.extend(file);
    words.push(values.len() as u32);
    for ((shape, constant), value) in pairs.all().into_iter().zip(values) {
        words.extend([shape, constant, u32::from(value.is_none())]);
        words.extend(value.unwrap_or([LENT; 6]));
    }
    words
}

/// A line for each shape: its words, how many constants it takes and how many
/// it doesn't.
fn readable(pairs: &Pairs, values: &[Value]) -> String {
    let mut lines = format!("# {} constants\n", pairs.constants());
    let of_each_shape = values.chunks(pairs.constants() as usize);
    for (shape, values) in (0..pairs.shapes()).zip(of_each_shape) {
        let taken = values.iter().flatten().count();
        let (words, none) = (pairs.shape(shape), values.len() - taken);
        writeln!(lines, "shape {words:?}: {taken} values, {none} none")
            .expect("a string takes any text");
    }
    lines
}

fn write(folder: &Path, name: &str, bytes: &[u8]) -> Result<(), String> {
    let path = folder.join(name);
    fs::write(&path, bytes).map_err(|error| format!("{}: {error}", path.display()))
}
