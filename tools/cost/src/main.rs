//! `cost TIMES exhibit STATIONS`, `cost TIMES wanting TYPES`,
//! `cost TIMES largest VARIABLES`, `cost TIMES uses TYPES`,
//! `cost TIMES chain BLOCKS ENTRIES FIELDS`: the start value of one variable of
//! a file and then its whole sheet, by the proved static library and by the
//! Rust, which resolves the declared types first as the library does and for a
//! sheet completes every variable's initializer. Under `valgrind
//! --tool=callgrind` the inclusive instructions of `library_variable`,
//! `rust_variable`, `library_sheet`, `rust_whole` and `library_check` are what
//! each takes; without it the least time of several calls is printed.
//!
//! `cost TIMES memory STATIONS`, `cost TIMES strings COUNT`: start memory of one
//! variable, written and read; `library_write`, `library_read`, `plain_write`
//! and `plain_read` under callgrind.

#[path = "../../trees/src/library.rs"]
mod library;
// Its work words are asked for in `library`.
#[allow(dead_code)]
#[path = "../../memory/src/library.rs"]
mod bytes;
mod extremes;
mod memory;
#[path = "../../sheets/src/library.rs"]
mod sheets;

use std::env;
use std::hint::black_box;
use std::process::exit;
use std::time::{Duration, Instant};

use analyzer_254::parsed::Parsed;
use files::layout::{File, VARIABLES};
use files::verdict::verdict;
use generate::exhibits::exhibit;
use library::{ask, work_words, What};
use sheets::{check_sheet, write_sheet};

/// A tree has at most so many words.
const TREE: usize = 2048 * 6;

struct Lent {
    out: Vec<u32>,
    lines: Vec<u32>,
    room: Vec<u32>,
}

#[inline(never)]
fn library_variable(words: &[u32], number: u32, lent: &mut Lent) -> u64 {
    ask(What::Variable, words, number, &mut lent.out, &mut lent.lines, &mut lent.room)
}

#[inline(never)]
fn library_sheet(words: &[u32], lent: &mut Lent) -> u64 {
    write_sheet(words, &mut lent.out, &mut lent.lines, &mut lent.room)
}

#[inline(never)]
fn library_check(words: &[u32], sheet: &[u32], room: &mut [u32]) -> u32 {
    check_sheet(words, sheet, room)
}

fn least(times: usize, mut call: impl FnMut() -> Duration) -> Duration {
    (0..times).map(|_| call()).min().unwrap_or_default()
}

fn timed<T>(call: impl FnOnce() -> T) -> Duration {
    let start = Instant::now();
    black_box(call());
    start.elapsed()
}

fn measure(words: &[u32], times: usize) {
    let file = File::open(words).expect("it is a file");
    let number = file.count(VARIABLES) - 5;
    let [lines, room] = work_words(words).map(|count| count as usize);
    let mut lent = Lent {
        out: vec![0; TREE],
        lines: vec![0; lines],
        room: vec![0; room],
    };
    let code = library_variable(words, number as u32, &mut lent);
    let said = match code >> 32 {
        0 => format!("{code} nodes"),
        number => format!("refused {number}"),
    };
    let library = least(times, || timed(|| library_variable(words, number as u32, &mut lent)));
    println!("{} words, {lines} and {room} work words, {said}: library {library:?}", words.len());
    let rust = least(times, || {
        let parsed = Parsed::of(file);
        timed(|| parsed.rust_variable(number))
    });
    println!("Rust {rust:?}");
}

/// No sheet has more words.
const SHEET: usize = (1024 + 2 * 4096) * 12_291 + 3;

fn measure_sheet(words: &[u32], times: usize) {
    let file = File::open(words).expect("it is a file");
    let [lines, room] = work_words(words).map(|count| count as usize);
    let mut lent = Lent {
        out: vec![0; SHEET],
        lines: vec![0; lines.min(SHEET)],
        room: vec![0; room],
    };
    let code = library_sheet(words, &mut lent);
    if code >> 32 != 0 {
        println!("no sheet: refused {}", code >> 32);
        return;
    }
    let sheet = lent.out[..code as usize].to_vec();
    assert_eq!(library_check(words, &sheet, &mut lent.room), 0, "the sheet passes");
    let written = least(times, || timed(|| library_sheet(words, &mut lent)));
    let checked = least(times, || timed(|| library_check(words, &sheet, &mut lent.room)));
    let rust = least(times, || {
        let parsed = Parsed::of(file);
        timed(|| parsed.rust_whole())
    });
    println!("a sheet of {code} words: written {written:?}, checked {checked:?}, Rust {rust:?}");
}

/// The file of a family that is named with its numbers.
fn file(family: &str, numbers: &[u32]) -> Option<Vec<u32>> {
    match (family, numbers) {
        ("exhibit" | "memory", [stations]) => Some(exhibit(*stations)),
        ("strings", [count]) => Some(memory::strings(*count)),
        ("largest", [variables]) => Some(extremes::largest(*variables)),
        ("uses", [types]) => Some(extremes::uses(*types)),
        ("wanting", [types]) => Some(extremes::wanting(*types)),
        ("chain", [blocks, pairs, fields]) => Some(extremes::chain(*blocks, *pairs, *fields)),
        _ => None,
    }
}

fn measure_family(family: &str, words: &[u32], times: usize) {
    let variables = File::open(words).expect("it is a file").count(VARIABLES) as u32;
    match family {
        "memory" => memory::measure(words, variables - 5, times),
        "strings" => memory::measure(words, 0, times),
        _ => {
            measure(words, times);
            measure_sheet(words, times);
        }
    }
}

fn main() {
    let arguments: Vec<String> = env::args().skip(1).collect();
    let family = arguments.get(1).map_or("", String::as_str);
    let numbers: Vec<u32> = arguments.iter().filter_map(|word| word.parse().ok()).collect();
    let words = numbers.split_first().and_then(|(times, sizes)| Some((*times, file(family, sizes)?)));
    let Some((times, words)) = words else {
        eprintln!("usage: cost TIMES exhibit STATIONS | wanting TYPES | largest VARIABLES | uses TYPES | chain BLOCKS ENTRIES FIELDS | memory STATIONS | strings COUNT");
        exit(2);
    };
    assert_eq!(verdict(&words), 0, "refused");
    measure_family(family, &words, times as usize);
}
