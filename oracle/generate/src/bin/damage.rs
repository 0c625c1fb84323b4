//! `damage SEED` reads framed files on standard input and writes for each
//! the file and behind it a damaged copy.

use files::frames;
use std::io::{BufReader, BufWriter, Write};
use std::process::ExitCode;

fn main() -> ExitCode {
    match run(&std::env::args().skip(1).collect::<Vec<_>>()) {
        Ok(()) => ExitCode::SUCCESS,
        Err(message) => {
            eprintln!("damage: {message}");
            ExitCode::FAILURE
        }
    }
}

fn run(arguments: &[String]) -> Result<(), String> {
    let [seed] = arguments else {
        return Err("usage: damage SEED".to_string());
    };
    let seed = seed
        .parse()
        .map_err(|_| format!("{seed} is not a number\nusage: damage SEED"))?;
    let mut input = BufReader::new(std::io::stdin().lock());
    let mut output = BufWriter::new(std::io::stdout().lock());
    for number in 0.. {
        let words = frames::read(&mut input).map_err(|error| format!("file {number}: {error}"));
        // What was read whole before is written all the same.
        let Some(words) = words.inspect_err(|_| output.flush().unwrap_or(()))? else {
            break;
        };
        let copy = generate::damage::damage(seed, number, &words);
        for frame in [words, copy] {
            frames::write(&mut output, &frame).map_err(|error| error.to_string())?;
        }
    }
    output.flush().map_err(|error| error.to_string())
}
