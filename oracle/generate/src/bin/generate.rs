//! `generate SEED COUNT [small|medium|large|memory] [FIRST]` writes COUNT framed
//! declaration files to standard output, from file FIRST (0) on.

use files::{frames, verdict::verdict};
use generate::Size;
use std::io::{BufWriter, Write};
use std::process::ExitCode;

const USAGE: &str = "usage: generate SEED COUNT [small|medium|large|memory] [FIRST]";

fn main() -> ExitCode {
    match run(&std::env::args().skip(1).collect::<Vec<_>>()) {
        Ok(()) => ExitCode::SUCCESS,
        Err(message) => {
            eprintln!("generate: {message}");
            ExitCode::FAILURE
        }
    }
}

fn run(arguments: &[String]) -> Result<(), String> {
    if arguments.len() < 2 || arguments.len() > 4 {
        return Err(USAGE.to_string());
    }
    let seed = number(&arguments[0])?;
    let count = number(&arguments[1])?;
    let size = arguments.get(2).map_or("small", String::as_str);
    let size = Size::named(size).ok_or(USAGE)?;
    let first = arguments.get(3).map_or(Ok(0), |first| number(first))?;
    let mut output = BufWriter::new(std::io::stdout().lock());
    for number in first..first.saturating_add(count) {
        let words = generate::file(seed, number, size);
        assert_eq!(verdict(&words), 0, "file {number} of {seed} is refused");
        frames::write(&mut output, &words).map_err(|error| error.to_string())?;
    }
    output.flush().map_err(|error| error.to_string())
}

fn number(text: &str) -> Result<u64, String> {
    text.parse()
        .map_err(|_| format!("{text} is not a number\n{USAGE}"))
}
