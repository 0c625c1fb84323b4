//! `trees SEED COUNT SIZE`: every type, every variable and every completed
//! initializer of COUNT generated files (SIZE is small, medium or large)
//! through the proved static library and through the Rust with document 01's
//! limit on trees put in: its own words, the characters cut of strings left
//! out, and all words with the characters cut (oracle/oracle/src/cut.rs).
//! Besides: answer slices that are a word short and some words long, a work
//! slice that is a word short, numbers that aren't there, damaged files. What
//! the work slices hold before a call is any words; afterwards all are 0. Fails
//! on any difference.

#[path = "../../sheets/src/lent.rs"]
mod lent;
mod library;

use std::collections::BTreeSet;
use std::env;
use std::process::exit;

use answers::{Answers, Tree};
use files::layout::{File, TYPES, VARIABLES};
use files::memory::STRING;
use files::sheet::leave_out_cut;
use files::verdict::verdict;
use generate::damage::damage;
use generate::random::Random;
use generate::{file, Size};
use lent::Lent;
use library::{ask, work_words, What};
use oracle::cut::counted;
use oracle::outcome::{outcome, Outcome};

/// Words behind the longest answer.
const BEHIND: usize = 7;

/// No tree has more words.
const TREE: usize = 2048 * 6;

/// A refusal stands in the high word of an answer.
fn refused(number: u32) -> u64 {
    u64::from(number) << 32
}

/// What was compared.
#[derive(Default)]
struct Counts {
    /// For types, variables and completed initializers: values, none or left,
    /// too large.
    asked: [[u64; 3]; 3],
    /// Words that are the Rust's own where the characters cut are left out, and
    /// words that are those with the characters cut.
    own_words: u64,
    words: u64,
    strings: u64,
    cut_strings: u64,
    short: u64,
    work: u64,
    refusals: [u64; 8],
    skipped: u64,
}

impl Counts {
    fn compared(&mut self, right: &Expected) {
        self.own_words += right.own.len() as u64;
        self.words += right.words.len() as u64;
        for node in right.words.chunks(6).filter(|node| node[1] == STRING) {
            self.strings += 1;
            self.cut_strings += u64::from(node[5] > 1);
        }
    }
}

/// A question's answer, and the words that it leaves at the front of out.
struct Expected {
    code: u64,
    words: Vec<u32>,
    /// The Rust's own, whose strings have a width only.
    own: Vec<u32>,
}

/// Whether out has the Rust's own words in front where the characters cut are
/// left out.
fn holds_own(out: &[u32], own: &[u32]) -> bool {
    let mut said = out[..own.len().min(out.len())].to_vec();
    leave_out_cut(&mut said);
    said == own
}

/// Asks, and ends the run unless answer and slices are as expected.
fn compare(what: What, words: &[u32], number: u32, lent: &mut Lent, expected: &Expected) {
    let code = ask(
        what,
        words,
        number,
        &mut lent.out,
        &mut lent.lines,
        &mut lent.room,
    );
    let is_own = code == expected.code && holds_own(&lent.out, &expected.own);
    if !is_own || !lent.holds(&expected.words) {
        let with = if is_own { "with the characters cut" } else { "without the characters cut" };
        eprintln!("{what:?} {number}, {with}: {code:#x} and not {:#x}", expected.code);
        eprintln!("out: {:?} and not {:?}", lent.out, expected.words);
        eprintln!("the file: {words:?}");
        exit(1);
    }
}

/// An answer without words.
fn without_words(code: u64) -> Expected {
    Expected {
        code,
        words: Vec::new(),
        own: Vec::new(),
    }
}

fn refusal(number: u32) -> Expected {
    without_words(refused(number))
}

/// A record's tree, and the kind of a completed initializer.
fn value(what: What, at: usize, answers: &Answers) -> Option<(u32, &Tree)> {
    match what {
        What::Type => answers.types[at].as_ref().map(|tree| (0, tree)),
        What::Variable => answers.variables[at].as_ref().map(|tree| (0, tree)),
        What::Completed => answers.completed[at].as_ref().map(|completed| (completed.kind, &completed.tree)),
    }
}

/// What document 01 and the Rust say of a record that is there, by its own
/// answers and by those with the characters cut.
fn expected(what: What, number: u32, own: &Answers, counted: &Answers) -> Expected {
    let at = number as usize;
    let large: &BTreeSet<u32> = match what {
        What::Type => &own.large.types,
        What::Variable | What::Completed => &own.large.variables,
    };
    match (value(what, at, own), value(what, at, counted)) {
        (Some((kind, own)), Some((_, counted))) => Expected {
            code: u64::from(kind) * 65536 + own.len() as u64,
            words: counted.concat(),
            own: own.concat(),
        },
        _ if large.contains(&number) => refusal(8),
        _ => without_words(0),
    }
}

/// A record that is there, with slices that are long enough; and some that
/// are not.
fn compare_record(
    counts: &mut Counts,
    random: &mut Random,
    lent: &mut Lent,
    what: What,
    words: &[u32],
    number: u32,
    right: &Expected,
) {
    let [lines, room] = work_words(words).map(|count| count as usize);
    let kind = usize::from(right.words.is_empty()) + usize::from(right.code > 0 && right.words.is_empty());
    counts.asked[what as usize][kind] += 1;
    lent.of(right.words.len() + random.below(BEHIND as u32) as usize, lines, room);
    compare(what, words, number, lent, right);
    counts.compared(right);
    if random.percent(10) && !right.words.is_empty() {
        lent.of(right.words.len() - 1, lines, room);
        compare(what, words, number, lent, &refusal(10));
        counts.short += 1;
    }
    if random.percent(5) {
        let in_lines = lines > 0 && random.percent(50);
        lent.of(TREE, lines - usize::from(in_lines), room - usize::from(!in_lines));
        compare(what, words, number, lent, &refusal(10));
        counts.work += 1;
    }
}

fn compare_file(counts: &mut Counts, random: &mut Random, lent: &mut Lent, words: &[u32]) {
    let Outcome::Answered(own) = outcome(words) else {
        counts.skipped += 1;
        return;
    };
    let counted = counted(words, &own).unwrap_or_else(|message| panic!("{message}: {words:?}"));
    let file = File::open(words).expect("it is a file");
    for (what, section) in [
        (What::Type, TYPES),
        (What::Variable, VARIABLES),
        (What::Completed, VARIABLES),
    ] {
        let many = file.count(section) as u32;
        for number in 0..many {
            let right = expected(what, number, &own, &counted);
            compare_record(counts, random, lent, what, words, number, &right);
        }
        let past = many.saturating_add(random.pick(&[0, 1, 1000, u32::MAX]));
        lent.of(TREE, 0, 0);
        compare(what, words, past, lent, &refusal(7));
        counts.refusals[7] += 1;
    }
}

/// A damaged copy of a file: its refusal comes before everything else.
fn compare_damaged(counts: &mut Counts, lent: &mut Lent, words: &[u32]) {
    let number = verdict(words);
    if number > 0 {
        for what in [What::Type, What::Variable, What::Completed] {
            lent.of(3, 5, 5);
            compare(what, words, 0, lent, &refusal(number));
        }
        counts.refusals[number as usize] += 1;
    }
}

fn main() {
    let arguments: Vec<String> = env::args().skip(1).collect();
    let size = match arguments.get(2).map(String::as_str) {
        Some("small") => Size::Small,
        Some("medium") => Size::Medium,
        Some("large") => Size::Large,
        _ => {
            eprintln!("usage: trees SEED COUNT small|medium|large");
            exit(2);
        }
    };
    let numbers: Vec<u64> = arguments[..2].iter().filter_map(|a| a.parse().ok()).collect();
    let [seed, count] = numbers[..] else {
        eprintln!("usage: trees SEED COUNT small|medium|large");
        exit(2);
    };
    let mut random = Random::new(&[seed]);
    let mut counts = Counts::default();
    let mut lent = Lent::default();
    for number in 0..count {
        let words = file(seed, number, size);
        compare_file(&mut counts, &mut random, &mut lent, &words);
        compare_damaged(&mut counts, &mut lent, &damage(seed, number, &words));
    }
    for (what, [values, none, large]) in ["types", "variables", "completed"].iter().zip(counts.asked) {
        println!("{what}: {values} values, {none} none or left, {large} too large");
    }
    println!(
        "words: {} are the Rust's own without the characters cut, {} with these; strings: {}, cut: {}",
        counts.own_words, counts.words, counts.strings, counts.cut_strings
    );
    println!(
        "short answer slices: {}; short work slices: {}; refusals 1 to 7: {:?}; files without an answer of the Rust: {}",
        counts.short,
        counts.work,
        &counts.refusals[1..],
        counts.skipped
    );
}
