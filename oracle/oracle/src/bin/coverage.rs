//! Counts, for each arm of each match in the unchanged files, how many
//! declaration files reach it. Fails where an arm is reached by none and isn't
//! listed as out of reach, or is listed and reached.

use std::io::{self, Write};
use std::process::ExitCode;

use analyzer_254::count::ARMS;
use files::frames;
use generate::Size;
use oracle::outcome::outcome;
use oracle::unreachable::UNREACHABLE;
use oracle::worker::{self, Worker};

const USAGE: &str =
    "usage: coverage SEED COUNT [small|medium|large]\n       coverage - < FRAMED-FILES";

fn main() -> ExitCode {
    let arguments: Vec<String> = std::env::args().skip(1).collect();
    let arguments: Vec<&str> = arguments.iter().map(String::as_str).collect();
    let result = match arguments[..] {
        [worker::ARGUMENT] => worker::serve(reply).map(|()| true),
        ["-"] => read_files().and_then(report),
        [seed, count] => generated(seed, count, "small"),
        [seed, count, size] => generated(seed, count, size),
        _ => Err(io::Error::other(USAGE)),
    };
    match result {
        Ok(true) => ExitCode::SUCCESS,
        Ok(false) => ExitCode::FAILURE,
        Err(error) => {
            eprintln!("coverage: {error}");
            ExitCode::from(2)
        }
    }
}

/// How many files reached each arm.
struct Counts {
    files: u64,
    /// Files that met a limit, whose arms are not known.
    huge: u64,
    arms: Vec<u64>,
    worker: Worker,
}

impl Counts {
    fn new() -> Self {
        Counts {
            files: 0,
            huge: 0,
            arms: vec![0; ARMS.len()],
            worker: Worker::default(),
        }
    }

    fn add(&mut self, words: &[u32]) -> io::Result<()> {
        self.files += 1;
        let Some(reply) = self.worker.ask(words)? else {
            self.huge += 1;
            return Ok(());
        };
        for place in reply.chunks_exact(4) {
            let place = u32::from_le_bytes(place.try_into().expect("four bytes"));
            self.arms[place as usize] += 1;
        }
        Ok(())
    }
}

/// The worker's reply for a file: the places of the arms that it reached.
fn reply(words: &[u32]) -> Vec<u8> {
    outcome(words);
    // One of the three has answered.
    let reached = [
        analyzer_1::count::take_reached(),
        analyzer_254::count::take_reached(),
        analyzer_65535::count::take_reached(),
    ];
    let places = reached.into_iter().flatten();
    places.flat_map(u32::to_le_bytes).collect()
}

fn read_files() -> io::Result<Counts> {
    let mut input = io::stdin().lock();
    let mut counts = Counts::new();
    while let Some(words) = frames::read(&mut input)? {
        counts.add(&words)?;
    }
    Ok(counts)
}

fn generated(seed: &str, count: &str, size: &str) -> io::Result<bool> {
    let number = |text: &str| text.parse::<u64>().map_err(|_| io::Error::other(USAGE));
    let (seed, count) = (number(seed)?, number(count)?);
    let size = Size::named(size).ok_or_else(|| io::Error::other(USAGE))?;
    let mut counts = Counts::new();
    for number in 0..count {
        counts.add(&generate::file(seed, number, size))?;
    }
    report(counts)
}

/// Prints the table; whether every arm that a file can reach was reached, and
/// no other.
fn report(counts: Counts) -> io::Result<bool> {
    let mut output = io::stdout().lock();
    writeln!(
        output,
        "{} files, {} of them huge",
        counts.files, counts.huge
    )?;
    writeln!(output, "{:>9}  arm", "files")?;
    let mut faults = unknown_arms();
    for ((file, line, function, pattern), count) in ARMS.iter().zip(counts.arms) {
        let file = file.trim_start_matches("xform_resolve_initial_values/");
        writeln!(output, "{count:>9}  {file}:{line} {function}: {pattern}")?;
        let reason = reason(file, *line);
        if let Some(reason) = reason {
            writeln!(output, "{:>9}  out of reach: {reason}", "")?;
        }
        match (count, reason) {
            (0, None) => faults.push(format!("{file}:{line} was reached by no file")),
            (1.., Some(_)) => faults.push(format!("{file}:{line} was reached")),
            _ => {}
        }
    }
    for fault in &faults {
        eprintln!("coverage: {fault}");
    }
    Ok(faults.is_empty())
}

/// Why no file can reach the arm at `line` of `file`.
fn reason(file: &str, line: usize) -> Option<&'static str> {
    let mut listed = UNREACHABLE.iter();
    let (_, _, reason) = listed.find(|listed| (listed.0, listed.1) == (file, line))?;
    Some(reason)
}

/// Entries of the list for which there is no arm.
fn unknown_arms() -> Vec<String> {
    let is_arm = |file: &str, line: usize| {
        let mut arms = ARMS.iter();
        arms.any(|arm| arm.0.ends_with(file) && arm.1 == line)
    };
    let unknown = UNREACHABLE
        .iter()
        .filter(|(file, line, _)| !is_arm(file, *line));
    let unknown = unknown.map(|(file, line, _)| format!("no arm starts at {file}:{line}"));
    unknown.collect()
}
