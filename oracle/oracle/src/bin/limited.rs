//! Prints what the Rust answers for declaration files with document 01's limit
//! on trees put in: `large` where a tree on the way has more than 2,048 nodes.

use std::process::ExitCode;

use oracle::program;

fn main() -> ExitCode {
    program::run("limited")
}
