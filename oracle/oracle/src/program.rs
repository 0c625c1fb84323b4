//! The programs `oracle` and `limited`: read framed declaration files from
//! standard input and print what the Rust answers for each. With `--cut` the
//! last word of a string has the characters cut besides (cut.rs).

use std::io::{self, BufWriter, Write};
use std::process::ExitCode;

use files::frames;

use crate::cut::counted;
use crate::outcome::{outcome, Outcome, HUGE};
use crate::worker::{self, Worker};

/// The option that counts the characters cut.
const CUT: &str = "--cut";

/// Runs the program `name` with the arguments that it was started with.
pub fn run(name: &str) -> ExitCode {
    let arguments: Vec<String> = std::env::args().skip(1).collect();
    let arguments: Vec<&str> = arguments.iter().map(String::as_str).collect();
    let result = match arguments[..] {
        [] => print_all(name, Worker::default()),
        [CUT] => print_all(name, Worker::with(&[CUT])),
        [worker::ARGUMENT] => worker::serve(reply),
        [worker::ARGUMENT, CUT] => worker::serve(counted_reply),
        _ => {
            eprintln!("usage: {name} [{CUT}] < FRAMED-FILES");
            return ExitCode::from(2);
        }
    };
    match result {
        Ok(()) => ExitCode::SUCCESS,
        Err(error) => {
            eprintln!("{name}: {error}");
            ExitCode::FAILURE
        }
    }
}

/// Prints the lines of every file. What was printed before an error stays.
fn print_all(name: &str, worker: Worker) -> io::Result<()> {
    let mut output = BufWriter::new(io::stdout().lock());
    let mut circles = 0;
    let printed = print_files(&mut output, worker, &mut circles);
    output.flush()?;
    if circles > 0 {
        eprintln!(
            "{name}: circles of alias bases without a block record, each answered with none: \
             {circles}"
        );
    }
    printed
}

fn print_files(output: &mut impl Write, mut worker: Worker, circles: &mut u64) -> io::Result<()> {
    let mut input = io::stdin().lock();
    let mut number = 0u64;
    while let Some(words) = frames::read(&mut input).map_err(|error| in_file(number, error))? {
        let reply = worker.ask(&words);
        let reply = reply.map_err(|error| in_file(number, error))?;
        writeln!(output, "file {number}")?;
        match reply {
            None => output.write_all(HUGE.as_bytes())?,
            Some(reply) => {
                let (met, lines) = reply.split_first_chunk().expect("a count stands in front");
                *circles += u64::from_le_bytes(*met);
                output.write_all(lines)?;
            }
        }
        number += 1;
    }
    Ok(())
}

fn in_file(number: u64, error: io::Error) -> io::Error {
    io::Error::new(error.kind(), format!("file {number}: {error}"))
}

/// The worker's reply for a file: how many circles were met, then the lines.
fn reply(words: &[u32]) -> Vec<u8> {
    lines(outcome(words))
}

/// The reply with the characters cut.
fn counted_reply(words: &[u32]) -> Vec<u8> {
    lines(match outcome(words) {
        Outcome::Answered(answers) => match counted(words, &answers) {
            Ok(answers) => Outcome::Answered(answers),
            Err(message) => panic!("{message}"),
        },
        other => other,
    })
}

fn lines(outcome: Outcome) -> Vec<u8> {
    let mut reply = outcome.circles().to_le_bytes().to_vec();
    reply.extend(outcome.lines().into_bytes());
    reply
}
