//! Prints what the Rust answers for declaration files, as it is.

use std::process::ExitCode;

use oracle::program;

fn main() -> ExitCode {
    // Cargo builds every program of a package with the same features.
    if cfg!(feature = "limited") {
        eprintln!("oracle: built with the feature `limited`, so it would not be the Rust as it is");
        return ExitCode::FAILURE;
    }
    program::run("oracle")
}
