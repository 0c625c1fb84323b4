//! `assemble [FILE...]` writes a frame for each text file, or for standard
//! input where none is named, to standard output.

use files::{frames, text};
use std::io::{Read, Write};
use std::process::ExitCode;

fn main() -> ExitCode {
    match run(&std::env::args().skip(1).collect::<Vec<_>>()) {
        Ok(()) => ExitCode::SUCCESS,
        Err(message) => {
            eprintln!("assemble: {message}");
            ExitCode::FAILURE
        }
    }
}

fn run(paths: &[String]) -> Result<(), String> {
    let mut frames = Vec::new();
    if paths.is_empty() {
        let mut source = String::new();
        std::io::stdin()
            .read_to_string(&mut source)
            .map_err(|error| error.to_string())?;
        append(&mut frames, "standard input", &source)?;
    }
    for path in paths {
        let source = std::fs::read_to_string(path).map_err(|error| format!("{path}: {error}"))?;
        append(&mut frames, path, &source)?;
    }
    // Nothing is written unless every text is sound.
    std::io::stdout()
        .write_all(&frames)
        .map_err(|error| error.to_string())
}

fn append(output: &mut Vec<u8>, path: &str, source: &str) -> Result<(), String> {
    let words = text::assemble(source).map_err(|error| format!("{path}: {error}"))?;
    frames::write(output, &words).map_err(|error| error.to_string())
}
