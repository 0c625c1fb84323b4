//! `linked SEED COUNT`: runs COUNT generated files, a damaged copy of each and
//! as many files of random words through the proved static library and
//! through `files::verdict`, and prints how many had each verdict; the numbers
//! of work words are compared too. Then the
//! time of both on the largest file, every section at its limit. Fails on any
//! difference.

mod random_files;
mod wanted;

use std::env;
use std::process::exit;
use std::time::Instant;

use files::layout::File;
use files::verdict::verdict;
use generate::damage::damage;
use generate::{file, Size};
use random_files::random_file;

extern "C" {
    /// A slice passes as a pointer and a length (crates/start_values).
    fn wirkesu_accept(file: *const u32, length: usize) -> u32;
    fn wirkesu_line_words(file: *const u32, length: usize) -> u64;
    fn wirkesu_room_words(file: *const u32, length: usize) -> u64;
}

fn accepted(words: &[u32]) -> u32 {
    // The library reads the slice's words and keeps nothing.
    unsafe { wirkesu_accept(words.as_ptr(), words.len()) }
}

/// The words that each work slice must have: a refusal in the high word, or
/// their number.
fn work_words(words: &[u32]) -> [u64; 2] {
    // The library reads the slice's words and keeps nothing.
    unsafe {
        [
            wirkesu_line_words(words.as_ptr(), words.len()),
            wirkesu_room_words(words.as_ptr(), words.len()),
        ]
    }
}

/// The same by docs/WORK.md.
fn wanted_words(words: &[u32], refusal: u32) -> [u64; 2] {
    match File::open(words) {
        Some(file) if refusal == 0 => [wanted::lines(&file), wanted::room(&file)],
        _ => [u64::from(refusal) << 32; 2],
    }
}

/// Counts the verdict, or ends the run where the two differ.
fn compare(counts: &mut [u64; 7], what: &str, number: u64, words: &[u32]) {
    let (ours, theirs) = (accepted(words), verdict(words));
    if ours != theirs {
        eprintln!("{what} {number}: the library answers {ours}, document 01's reading {theirs}");
        exit(1);
    }
    let (ours, wanted) = (work_words(words), wanted_words(words, theirs));
    if ours != wanted {
        eprintln!("{what} {number}: the library wants {ours:?} work words, docs/WORK.md {wanted:?}");
        exit(1);
    }
    counts[theirs as usize] += 1;
}

fn report(what: &str, counts: &[u64; 7]) {
    let all: u64 = counts.iter().sum();
    println!("{what}: {all} files; verdicts 0 to 6: {counts:?}");
}

/// How often each of the two is run on the largest file, in turn.
const REPEATED: usize = 100;

/// Every section at its limit, with records that are allowed: 1,024 shapes
/// that differ, function blocks or structures of four fields, and elsewhere
/// records of zeros and names.
fn largest(structures: bool) -> Vec<u32> {
    use files::layout::{MOST, SECTIONS, WORDS};
    let mut words = Vec::new();
    for section in 0..SECTIONS {
        words.push(MOST[section] as u32);
        for number in 0..MOST[section] {
            let mut record = vec![0u32; WORDS[section]];
            match section {
                files::layout::SHAPES if !structures => {
                    record[..2].copy_from_slice(&[14, number as u32 + 1])
                }
                files::layout::SHAPES if number > 0 => {
                    record[..3].copy_from_slice(&[11, 4 * number as u32, 4])
                }
                files::layout::SHAPE_FIELDS => record[0] = number as u32 + 1,
                files::layout::MEMBERS
                | files::layout::BLOCK_FIELDS
                | files::layout::ELEMENTS => record[0] = 1,
                files::layout::TYPES => record[9] = u32::MAX,
                files::layout::SETTINGS => record[0] = 254,
                _ => {}
            }
            words.extend(record);
        }
    }
    words
}

/// The least time of one call, of many.
fn timed(run: impl Fn(&[u32]) -> u32, words: &[u32], least: &mut f64) -> u32 {
    let started = Instant::now();
    let answer = run(words);
    *least = least.min(started.elapsed().as_secs_f64());
    answer
}

fn measure(what: &str, words: &[u32]) {
    let (mut ours, mut our_time) = (0, f64::MAX);
    let (mut theirs, mut their_time) = (0, f64::MAX);
    for _ in 0..REPEATED {
        ours = timed(accepted, words, &mut our_time);
        theirs = timed(verdict, words, &mut their_time);
    }
    println!(
        "largest file, {what}, {} words: library {ours} in {:.3} ms, plain Rust {theirs} in {:.3} ms",
        words.len(),
        our_time * 1e3,
        their_time * 1e3
    );
}

fn main() {
    let arguments: Vec<u64> = env::args().skip(1).filter_map(|a| a.parse().ok()).collect();
    let [seed, count] = arguments[..] else {
        eprintln!("usage: linked SEED COUNT");
        exit(2);
    };
    let (mut good, mut damaged, mut random) = ([0; 7], [0; 7], [0; 7]);
    for number in 0..count {
        let words = file(seed, number, Size::Small);
        compare(&mut good, "generated", number, &words);
        compare(
            &mut damaged,
            "damaged",
            number,
            &damage(seed, number, &words),
        );
        compare(&mut random, "random", number, &random_file(seed, number));
    }
    report("generated", &good);
    report("damaged", &damaged);
    report("random", &random);

    measure("function blocks", &largest(false));
    measure("structures", &largest(true));
}
