//! Start sheets, their check, and rows that people read, over the proved
//! static library. See USAGE.

mod differences;
mod library;
mod memory;
mod names;
mod places;
mod rows;
mod sheet;
mod times;
mod values;

use std::env;
use std::fs;
use std::io::{self, Write};
use std::process::ExitCode;

use files::text::assemble;
use library::{accept, check_sheet, write_sheet, Refused};
use names::Names;
use rows::{rows, Stop};

const USAGE: &str = "\
usage: start-values sheet FILE [-o SHEET]    the start sheet, as words in little-endian bytes
       start-values check FILE SHEET         whether a sheet is the file's
       start-values rows FILE                a row for every leaf of every variable
       start-values diff FILE FILE           the rows that differ
       start-values memory FILE VARIABLE     the bytes that a variable starts with; VARIABLE is its number or name
       --hex            in memory: a row for every leaf, with where its bytes begin
       --read BYTES     in memory: a row for every leaf, read from the bytes of BYTES
       --names NAMES    in rows, diff and memory: name n is on line n of NAMES
       --text           files are in the text form of vectors/examples";

/// What the words of a command line say.
#[derive(Default)]
struct Options {
    operands: Vec<String>,
    out: Option<String>,
    names: Option<String>,
    bytes: Option<String>,
    is_hex: bool,
    is_text: bool,
}

fn options(words: impl Iterator<Item = String>) -> Result<Options, String> {
    let mut options = Options::default();
    let mut words = words;
    while let Some(word) = words.next() {
        let mut next = || words.next().ok_or(format!("{word} needs a file name"));
        match word.as_str() {
            "-o" => options.out = Some(next()?),
            "--names" => options.names = Some(next()?),
            "--read" => options.bytes = Some(next()?),
            "--hex" => options.is_hex = true,
            "--text" => options.is_text = true,
            other if other.starts_with('-') => return Err(format!("there is no option {other}")),
            _ => options.operands.push(word),
        }
    }
    Ok(options)
}

fn read(path: &str) -> Result<Vec<u8>, String> {
    fs::read(path).map_err(|error| format!("{path}: {error}"))
}

/// Words of four bytes each, the least first; refusal 1 where bytes are left.
fn words(bytes: &[u8]) -> Result<Vec<u32>, Refused> {
    let (whole, rest) = bytes.as_chunks::<4>();
    match rest {
        [] => Ok(whole.iter().map(|four| u32::from_le_bytes(*four)).collect()),
        _ => Err(Refused(1)),
    }
}

fn declarations(path: &str, options: &Options) -> Result<Vec<u32>, Stop> {
    let bytes = read(path)?;
    if !options.is_text {
        return Ok(words(&bytes)?);
    }
    let text = String::from_utf8(bytes).map_err(|_| format!("{path}: not UTF-8"))?;
    Ok(assemble(&text).map_err(|error| format!("{path}: {error}"))?)
}

fn names(options: &Options) -> Result<Names, Stop> {
    match &options.names {
        None => Ok(Names::numbers()),
        Some(path) => {
            let text = String::from_utf8(read(path)?).map_err(|_| format!("{path}: not UTF-8"))?;
            Ok(Names::of(&text))
        }
    }
}

fn print(lines: impl Iterator<Item = String>) -> Result<(), Stop> {
    let mut out = io::stdout().lock();
    for line in lines {
        writeln!(out, "{line}").map_err(|error| error.to_string())?;
    }
    Ok(())
}

/// Bytes to the file that -o names, or to standard output.
fn put(bytes: &[u8], options: &Options) -> Result<(), Stop> {
    match &options.out {
        Some(path) => fs::write(path, bytes).map_err(|error| format!("{path}: {error}"))?,
        None => io::stdout().write_all(bytes).map_err(|error| error.to_string())?,
    }
    Ok(())
}

fn sheet_command(file: &str, options: &Options) -> Result<bool, Stop> {
    let sheet = write_sheet(&declarations(file, options)?)?;
    let bytes: Vec<u8> = sheet.iter().flat_map(|word| word.to_le_bytes()).collect();
    put(&bytes, options)?;
    Ok(true)
}

fn memory_command(file: &str, variable: &str, options: &Options) -> Result<bool, Stop> {
    let words = declarations(file, options)?;
    accept(&words)?;
    let names = names(options)?;
    let variable = memory::number(&words, &names, variable)?;
    let (heading, rows) = match (&options.bytes, options.is_hex) {
        (Some(path), false) => (memory::READ_HEADING.join("\t"), memory::read_rows(&words, &names, variable, &read(path)?)?),
        (None, true) => (memory::BYTES_HEADING.join("\t"), memory::bytes_rows(&words, &names, variable)?),
        (None, false) => {
            put(&memory::bytes(&words, variable)?, options)?;
            return Ok(true);
        }
        _ => return Err(Stop::Misused("--hex and --read exclude each other".to_string())),
    };
    print([heading].into_iter().chain(rows))?;
    Ok(true)
}

fn check_command(file: &str, sheet: &str, options: &Options) -> Result<bool, Stop> {
    let file = declarations(file, options)?;
    let sheet = words(&read(sheet)?).map_err(|_| Refused(11))?;
    check_sheet(&file, &sheet)?;
    print(["passes".to_string()].into_iter())?;
    Ok(true)
}

fn rows_command(file: &str, options: &Options) -> Result<bool, Stop> {
    let rows = rows(&declarations(file, options)?, &names(options)?)?;
    let heading = rows::HEADING.join("\t");
    print([heading].into_iter().chain(rows.iter().map(|row| row.line())))?;
    Ok(true)
}

/// Whether there are no differences.
fn diff_command(first: &str, second: &str, options: &Options) -> Result<bool, Stop> {
    let names = names(options)?;
    let first = rows(&declarations(first, options)?, &names)?;
    let second = rows(&declarations(second, options)?, &names)?;
    let lines = differences::differences(&first, &second);
    let is_same = lines.is_empty();
    if !is_same {
        print([differences::HEADING.join("\t")].into_iter().chain(lines))?;
    }
    Ok(is_same)
}

fn run(arguments: Vec<String>) -> Result<bool, Stop> {
    let options = options(arguments.into_iter())?;
    let operands: Vec<&str> = options.operands.iter().map(String::as_str).collect();
    match operands[..] {
        ["sheet", file] => sheet_command(file, &options),
        ["check", file, sheet] => check_command(file, sheet, &options),
        ["rows", file] => rows_command(file, &options),
        ["diff", first, second] => diff_command(first, second, &options),
        ["memory", file, variable] => memory_command(file, variable, &options),
        _ => Err(Stop::Misused(USAGE.to_string())),
    }
}

/// What a refusal says, as documents 01 and 02 have it.
fn meaning(number: u32) -> &'static str {
    match number {
        1 => "the words end before or after the last section does",
        2 => "a section has too many records, or Settings not one",
        3 => "a word has a value that its record does not allow",
        4 => "a number, link or run points where it must not",
        5 => "two shapes are alike",
        6 => "an array shape has more than 65,536 elements",
        7 => "the asked variable is not in the file",
        8 => "a tree has more than 2,048 nodes",
        9 => "the uses of types run in a circle",
        11 => "the sheet's words are not the three sections of this file",
        12 => "a rank is not above that of a used type",
        13 => "a line is not what the file gives",
        14 => "a node that its place cannot hold, or bytes that no tree is written as",
        15 => "a character too wide",
        _ => "a slice is too short",
    }
}

fn main() -> ExitCode {
    match run(env::args().skip(1).collect()) {
        Ok(true) => ExitCode::SUCCESS,
        Ok(false) => ExitCode::from(1),
        Err(Stop::Refused(Refused(number))) => {
            eprintln!("refused {number}: {}", meaning(number));
            ExitCode::from(1)
        }
        Err(Stop::None) => {
            eprintln!("none");
            ExitCode::from(1)
        }
        Err(Stop::Misused(message)) => {
            eprintln!("{message}");
            ExitCode::from(2)
        }
    }
}
