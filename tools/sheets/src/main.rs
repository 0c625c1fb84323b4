//! `sheets written SEED COUNT SIZE`: the sheet that the proved static library
//! writes for each of COUNT generated files (SIZE is small, medium or large)
//! against the Rust with document 01's limit on trees put in: its own lines, the
//! characters cut of strings left out, and all words with the characters cut
//! (oracle/oracle/src/cut.rs); against the library's own trees and against its
//! check. Besides: slices that are a word short, ranks that are raised together,
//! circles, damaged files.
//!
//! `sheets changed SEED COUNT SIZE`: every word of a file's sheet changed in
//! turn, every string's characters cut, and every shorter length: what the
//! library's check answers against a plain reading of document 01
//! (oracle/files/src/sheet.rs).
//!
//! Either fails on any difference.

mod changed;
mod lent;
mod library;
#[path = "../../trees/src/library.rs"]
mod trees;
mod written;

use std::env;
use std::process::exit;

use generate::Size;

/// Ends the run with what is different.
fn differs(what: &str, words: &[u32], sheet: &[u32]) -> ! {
    eprintln!("{what}");
    eprintln!("the file: {words:?}");
    eprintln!("the sheet: {sheet:?}");
    exit(1);
}

fn main() {
    let arguments: Vec<String> = env::args().skip(1).collect();
    let arguments: Vec<&str> = arguments.iter().map(String::as_str).collect();
    let parsed = match arguments[..] {
        [mode, seed, count, size] => (|| Some((mode, seed.parse().ok()?, count.parse().ok()?, Size::named(size)?)))(),
        _ => None,
    };
    match parsed {
        Some(("written", seed, count, size)) => written::run(seed, count, size),
        Some(("changed", seed, count, size)) => changed::run(seed, count, size),
        _ => {
            eprintln!("usage: sheets written|changed SEED COUNT small|medium|large");
            exit(2);
        }
    }
}
