//! Sheets that the library writes.

use files::layout::{File, TYPES, VARIABLES};
use files::sheet::{check, last_words, sheet, Lines};
use files::verdict::verdict;
use generate::damage::damage;
use generate::random::Random;
use generate::{file, Size};
use oracle::right::{right, Right};

use crate::differs;
use crate::lent::Lent;
use crate::library::{check_sheet, write_sheet};
use crate::trees::{ask, work_words, What};

/// No tree has more words.
const TREE: usize = 2048 * 6;

/// What was compared.
#[derive(Default)]
struct Counts {
    sheets: u64,
    words: u64,
    strings: u64,
    cut_strings: u64,
    circles: u64,
    other_ranks: [u64; 2],
    short: u64,
    damaged: u64,
    skipped: u64,
}

fn refused(number: u32) -> u64 {
    u64::from(number) << 32
}

/// Writes with slices of these lengths; the answer.
fn written(words: &[u32], lent: &mut Lent, lengths: [usize; 3]) -> u64 {
    lent.of(lengths[0], lengths[1], lengths[2]);
    write_sheet(words, &mut lent.out, &mut lent.lines, &mut lent.room)
}

/// Writes with slices of these lengths, and ends the run unless the answer and
/// every word are as expected.
fn writes(words: &[u32], lent: &mut Lent, lengths: [usize; 3], code: u64, sheet: &[u32]) {
    let said = written(words, lent, lengths);
    if said != code || !lent.holds(sheet) {
        differs(&format!("written: {said:#x} and not {code:#x}, {lengths:?}"), words, sheet);
    }
}

/// Writes as in `writes`, and ends the run unless the sheet is the Rust's own
/// where the characters cut are left out.
fn writes_own(words: &[u32], lent: &mut Lent, lengths: [usize; 3], right: &Right, ranks: &[u32]) {
    let own = sheet(&right.own, ranks);
    let said = written(words, lent, lengths);
    let mut without = lent.out[..own.len()].to_vec();
    for at in last_words(&right.own) {
        without[at] %= 2;
    }
    if said != own.len() as u64 || without != own {
        differs(&format!("written, without the characters cut: {said:#x} and {without:?}"), words, &own);
    }
}

fn checks(words: &[u32], lent: &mut Lent, room: usize, sheet: &[u32], number: u32) {
    lent.of(0, 0, room);
    let said = check_sheet(words, sheet, &mut lent.room);
    if said != number || !lent.is_cleared() {
        differs(&format!("checked: {said} and not {number}"), words, sheet);
    }
}

/// The line that the library's own answer makes.
fn answered(what: What, words: &[u32], number: u32, lent: &mut Lent, [lines, room]: [usize; 2]) -> Vec<u32> {
    lent.of(TREE, lines, room);
    let code = ask(what, words, number, &mut lent.out, &mut lent.lines, &mut lent.room);
    let [high, low] = [(code >> 32) as u32, code as u32];
    let [kind, nodes] = [low >> 16, low & 0xFFFF];
    let head = match (what, high, nodes) {
        (What::Completed, 0, 1..) => vec![0, kind, nodes],
        (What::Completed, 0 | 8, 0) => vec![1, 0, 0],
        (_, 0, 1..) => vec![0, nodes],
        (_, 0, 0) => vec![1, 0],
        (_, 8, 0) => vec![2, 0],
        _ => differs("an answer that no line has", words, &[high, low]),
    };
    [&head[..], &lent.out[..6 * nodes as usize]].concat()
}

fn answered_lines(words: &[u32], lent: &mut Lent, work: [usize; 2]) -> Lines {
    let file = File::open(words).expect("it is a file");
    let mut all = |what, section| {
        let numbers = 0..file.count(section) as u32;
        numbers.map(|number| answered(what, words, number, lent, work)).collect()
    };
    Lines {
        types: all(What::Type, TYPES),
        variables: all(What::Variable, VARIABLES),
        completed: all(What::Completed, VARIABLES),
    }
}

/// Slices that are a word short.
fn shorter(counts: &mut Counts, words: &[u32], lent: &mut Lent, [lines, room]: [usize; 2], length: usize) {
    let few = length.min(lines);
    writes(words, lent, [length - 1, few, room], refused(10), &[]);
    writes(words, lent, [length, few, room - 1], refused(10), &[]);
    if few > 0 {
        writes(words, lent, [length, few - 1, room], refused(10), &[]);
    }
    counts.short += 2 + u64::from(few > 0);
}

/// Any ranks: raised together, and each by itself.
fn other_ranks(counts: &mut Counts, random: &mut Random, words: &[u32], right: &Right, ranks: &[u32], lent: &mut Lent, room: usize) {
    let file = File::open(words).expect("it is a file");
    let more = random.below(1000);
    let times = 1 + random.below(3);
    let raised: Vec<u32> = ranks.iter().map(|rank| rank * times + more).collect();
    checks(words, lent, room, &right.sheet(&raised), 0);
    let moved: Vec<u32> = raised.iter().map(|rank| rank.wrapping_add(random.below(3)).wrapping_sub(1)).collect();
    let sheet = right.sheet(&moved);
    let number = check(&file, &sheet, &right.lines);
    checks(words, lent, room, &sheet, number);
    counts.other_ranks[usize::from(number != 0)] += 1;
}

fn ranked(counts: &mut Counts, random: &mut Random, words: &[u32], right: &Right, ranks: &[u32], lent: &mut Lent) {
    let [lines, room] = work_words(words).map(|count| count as usize);
    let sheet = right.sheet(ranks);
    let length = sheet.len() + random.below(7) as usize;
    let lengths = [length, length.min(lines), room];
    writes_own(words, lent, lengths, right, ranks);
    writes(words, lent, lengths, sheet.len() as u64, &sheet);
    shorter(counts, words, lent, [lines, room], sheet.len());
    checks(words, lent, room, &sheet, 0);
    checks(words, lent, room - 1, &sheet, 10);
    other_ranks(counts, random, words, right, ranks, lent, room);
    if answered_lines(words, lent, [lines, room]) != right.lines {
        differs("the library's own trees are others", words, &sheet);
    }
    counts.sheets += 1;
    counts.words += sheet.len() as u64;
    let strings = last_words(&right.lines);
    counts.strings += strings.len() as u64;
    counts.cut_strings += strings.iter().filter(|at| sheet[**at] > 1).count() as u64;
}

/// No ranks rise along a circle: 9, and 12 for any of them.
fn circle(counts: &mut Counts, random: &mut Random, words: &[u32], right: &Right, lent: &mut Lent) {
    let [lines, room] = work_words(words).map(|count| count as usize);
    let length = random.below(3000) as usize;
    writes(words, lent, [length, length.min(lines), room], refused(9), &[]);
    let ranks: Vec<u32> = right.lines.types.iter().map(|_| random.below(5)).collect();
    let sheet = right.sheet(&ranks);
    checks(words, lent, room, &sheet, 12);
    checks(words, lent, room, &sheet[..sheet.len() - 1], 11);
    counts.circles += 1;
}

fn compare(counts: &mut Counts, random: &mut Random, words: &[u32], lent: &mut Lent) {
    let Some(right) = right(words) else {
        counts.skipped += 1;
        return;
    };
    match &right.ranks {
        Some(ranks) => ranked(counts, random, words, &right, ranks, lent),
        None => circle(counts, random, words, &right, lent),
    }
}

fn damaged(counts: &mut Counts, words: &[u32], lent: &mut Lent) {
    let number = verdict(words);
    if number > 0 {
        writes(words, lent, [5, 5, 5], refused(number), &[]);
        checks(words, lent, 5, &[1, 2, 3], number);
        counts.damaged += 1;
    }
}

pub fn run(seed: u64, count: u64, size: Size) {
    let mut random = Random::new(&[seed]);
    let mut counts = Counts::default();
    let mut lent = Lent::default();
    for number in 0..count {
        let words = file(seed, number, size);
        compare(&mut counts, &mut random, &words, &mut lent);
        damaged(&mut counts, &damage(seed, number, &words), &mut lent);
    }
    println!("{} sheets of {} words together", counts.sheets, counts.words);
    println!(
        "each once as the Rust's own without the characters cut, once with these; strings: {}, cut: {}",
        counts.strings, counts.cut_strings
    );
    println!(
        "{} circles; other ranks: {} pass, {} do not; {} short slices; {} damaged files; {} files without an answer of the Rust",
        counts.circles, counts.other_ranks[0], counts.other_ranks[1], counts.short, counts.damaged, counts.skipped
    );
}
