//! `show` reads framed files on standard input and prints the text form of
//! each after a comment with its number and, where it is refused, the
//! refusal.

use files::{frames, text, verdict::verdict};
use std::io::{BufReader, BufWriter, Write};
use std::process::ExitCode;

fn main() -> ExitCode {
    match run() {
        Ok(()) => ExitCode::SUCCESS,
        Err(message) => {
            eprintln!("show: {message}");
            ExitCode::FAILURE
        }
    }
}

fn run() -> Result<(), String> {
    let mut input = BufReader::new(std::io::stdin().lock());
    let mut output = BufWriter::new(std::io::stdout().lock());
    for number in 0.. {
        let words = frames::read(&mut input).map_err(|error| format!("file {number}: {error}"));
        let Some(words) = words.inspect_err(|_| output.flush().unwrap_or(()))? else {
            break;
        };
        let shown = shown(number, &words);
        output
            .write_all(shown.as_bytes())
            .map_err(|error| error.to_string())?;
    }
    output.flush().map_err(|error| error.to_string())
}

fn shown(number: u32, words: &[u32]) -> String {
    let refusal = match verdict(words) {
        0 => String::new(),
        refusal => format!(", refused {refusal}"),
    };
    let text = text::show(words).unwrap_or_else(|| format!("# {words:?}\n"));
    format!("# file {number}{refusal}\n{text}")
}
