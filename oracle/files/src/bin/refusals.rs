//! `refusals FOLDER` writes the cases of the refusals 1 to 6: `refusals.bin`
//! for programs and `refusals.txt` for people. It writes nothing where
//! `verdict` and an expectation differ.

use files::refusals::{binary, cases, disagreement, text, Case};
use std::path::Path;
use std::process::ExitCode;

fn main() -> ExitCode {
    match run(&std::env::args().skip(1).collect::<Vec<_>>()) {
        Ok(()) => ExitCode::SUCCESS,
        Err(message) => {
            eprintln!("refusals: {message}");
            ExitCode::FAILURE
        }
    }
}

fn run(arguments: &[String]) -> Result<(), String> {
    let [folder] = arguments else {
        return Err("usage: refusals FOLDER".to_string());
    };
    let cases = cases();
    if let Some(message) = disagreement(&cases) {
        return Err(message);
    }
    let binary = binary(&cases).map_err(|error| error.to_string())?;
    let folder = Path::new(folder);
    write(&folder.join("refusals.bin"), &binary)?;
    write(&folder.join("refusals.txt"), text(&cases).as_bytes())?;
    println!("{}", counts(&cases));
    Ok(())
}

fn write(path: &Path, bytes: &[u8]) -> Result<(), String> {
    std::fs::write(path, bytes).map_err(|error| format!("{}: {error}", path.display()))
}

/// How many cases each verdict has.
fn counts(cases: &[Case]) -> String {
    let of = |verdict| cases.iter().filter(|case| case.expected == verdict).count();
    let each: Vec<_> = (0..=6)
        .map(|verdict| format!("{verdict}: {}", of(verdict)))
        .collect();
    format!("{} cases by verdict, {}", cases.len(), each.join(", "))
}
