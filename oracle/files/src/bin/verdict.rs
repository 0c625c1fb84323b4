//! `verdict` reads framed files on standard input and prints for each, on a
//! line of its own, the first refusal of 1 to 6 that it meets, or 0.

use files::{frames, verdict::verdict};
use std::io::{BufReader, BufWriter, Write};
use std::process::ExitCode;

fn main() -> ExitCode {
    match run() {
        Ok(()) => ExitCode::SUCCESS,
        Err(message) => {
            eprintln!("verdict: {message}");
            ExitCode::FAILURE
        }
    }
}

fn run() -> Result<(), String> {
    let mut input = BufReader::new(std::io::stdin().lock());
    let mut output = BufWriter::new(std::io::stdout().lock());
    for number in 0.. {
        let words = frames::read(&mut input).map_err(|error| format!("file {number}: {error}"));
        let Some(words) = words.inspect_err(|_| output.flush().unwrap_or(()))? else {
            break;
        };
        writeln!(output, "{}", verdict(&words)).map_err(|error| error.to_string())?;
    }
    output.flush().map_err(|error| error.to_string())
}
