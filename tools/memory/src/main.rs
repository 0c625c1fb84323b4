//! `memory SEED COUNT SIZE`: start memory of every variable of COUNT generated
//! files (SIZE is small, medium, large or memory; of some where there are many) by the proved static library
//! and by a plain reading of document 02 (oracle/files/src/memory.rs) over the
//! Rust's trees with document 01's limit put in and the characters cut. Written with slices of several
//! lengths; read back, and read from bytes next to these and from others of the
//! same parts, with slices for nodes and characters that are exact, a word short
//! and a word long. Besides: too few work words, numbers that aren't there,
//! damaged files. What the work slices hold before a call is any words;
//! afterwards all are 0. Ends at the first difference.

mod compare;
mod counts;
// Its slice for words of an answer is not lent here.
#[allow(dead_code)]
#[path = "../../sheets/src/lent.rs"]
mod lent;
mod library;

use std::env;
use std::process::exit;

use answers::{Answers, Tree};
use compare::{reads, refused, writes, Asked, Right};
use counts::Counts;
use files::layout::{File, VARIABLES};
use files::memory::{self, parts::parts};
use files::verdict::verdict;
use generate::bytes::{damaged, invented};
use generate::damage::damage;
use generate::random::Random;
use generate::{file, Size};
use lent::Lent;
use library::work_words;
use oracle::cut::counted;
use oracle::outcome::{outcome, Outcome};

/// The answer of the writer for none.
const NO_BYTES: u64 = 0xFFFF_FFFF;

/// Longer bytes are read less often.
const LONG: usize = 5000;

/// Of a file with more variables than `MANY` only `SOME` are compared.
const MANY: u32 = 200;
const SOME: u32 = 20;

/// Ends the run with what is different.
fn differs(what: &str, words: &[u32], slices: &str) -> ! {
    eprintln!("{what}");
    eprintln!("the slices: {slices}");
    eprintln!("the file: {words:?}");
    exit(1);
}

/// All variables, or some where there are many.
fn chosen(random: &mut Random, count: u32) -> Vec<u32> {
    match count > MANY {
        true => (0..SOME).map(|_| random.below(count)).collect(),
        false => (0..count).collect(),
    }
}

#[derive(Default)]
struct Run {
    counts: Counts,
    lent: Lent,
}

impl Run {
    /// Writes with slices of the right length, of others, and of none.
    fn write(&mut self, random: &mut Random, asked: Asked, right: &Right<Vec<u8>>) {
        let length = right.as_ref().map_or(random.below(9) as usize, Vec::len);
        let mut lengths = vec![length, length + 1 + random.below(9) as usize];
        if length > 0 {
            lengths.extend([length - 1, 0]);
        }
        for length in lengths {
            let code = writes(asked, &mut self.lent, length, right);
            self.counts.wrote(code);
        }
    }

    /// Reads with exact slices; those that are read also with others.
    fn read(&mut self, random: &mut Random, asked: Asked, bytes: &[u8], right: &Right<compare::Read>) {
        let exact = right.as_ref().map_or([random.below(9) as usize, 0], |read| [read.0.len(), read.1.len()]);
        let mut lengths = vec![exact];
        if right.is_ok() {
            let [nodes, characters] = exact;
            lengths.push([nodes + 1 + random.below(9) as usize, characters + 1]);
            lengths.push([nodes - 1, characters]);
            if characters > 0 {
                lengths.push([nodes, characters - 1]);
            }
        }
        for lengths in lengths {
            let code = reads(asked, &mut self.lent, bytes, lengths, right);
            self.counts.read(code);
        }
    }

    /// A tree: written, and read from its bytes, from others of its parts, and
    /// from those next to either.
    fn tree(&mut self, random: &mut Random, asked: Asked, file: &File, tree: &Tree) {
        let written = memory::write(file, asked.variable, tree);
        self.counts.tree(file, asked.variable, tree, &written);
        let right = written.as_ref().map_err(|number| refused(*number)).cloned();
        self.write(random, asked, &right);
        let mut all = Vec::new();
        all.extend(written.ok());
        match parts(file, asked.variable, tree) {
            Ok(parts) => all.extend((0..2).map(|_| invented(random, &parts))),
            Err(_) => all.push(vec![0; random.below(9) as usize]),
        }
        let which = random.below(all.len() as u32) as usize;
        if all[which].len() <= LONG || random.percent(10) {
            let next = damaged(random, &all[which]);
            all.extend(next);
        }
        for bytes in all {
            let read = memory::read(file, asked.variable, tree, &bytes).map_err(refused);
            self.read(random, asked, &bytes, &read);
        }
    }

    /// The same refusal for writing and reading, whatever the slices.
    fn refuses(&mut self, random: &mut Random, asked: Asked, number: u32) {
        let length = random.below(9) as usize;
        let code = writes(asked, &mut self.lent, length, &Err(refused(number)));
        self.counts.wrote(code);
        let code = reads(asked, &mut self.lent, &vec![0; length], [length, length], &Err(refused(number)));
        self.counts.read(code);
    }

    /// Slices that are a word short of the work words.
    fn short_work(&mut self, random: &mut Random, asked: Asked) {
        let [lines, room] = asked.work;
        if lines > 0 {
            self.refuses(random, Asked { work: [lines - 1, room], ..asked }, 10);
        }
        if room > 0 {
            self.refuses(random, Asked { work: [lines, room - 1], ..asked }, 10);
        }
    }

    fn variable(&mut self, random: &mut Random, asked: Asked, file: &File, answers: &Answers) {
        match &answers.variables[asked.variable as usize] {
            Some(tree) => self.tree(random, asked, file, tree),
            None if answers.large.variables.contains(&asked.variable) => self.refuses(random, asked, 8),
            None => {
                self.write(random, asked, &Err(NO_BYTES));
                let length = random.below(9) as usize;
                self.read(random, asked, &vec![0; length], &Err(0));
            }
        }
        if random.percent(5) {
            self.short_work(random, asked);
        }
    }

    fn file(&mut self, random: &mut Random, words: &[u32]) {
        let Outcome::Answered(answers) = outcome(words) else {
            self.counts.skipped += 1;
            return;
        };
        let answers = counted(words, &answers).unwrap_or_else(|message| panic!("{message}: {words:?}"));
        let file = File::open(words).expect("it is a file");
        let count = file.count(VARIABLES) as u32;
        let work = work_words(words);
        for variable in chosen(random, count) {
            self.variable(random, Asked { words, variable, work }, &file, &answers);
        }
        let variable = count.saturating_add(random.pick(&[0, 1, 1000, u32::MAX]));
        self.refuses(random, Asked { words, variable, work: [0, 0] }, 7);
        self.counts.files += 1;
    }

    /// A damaged copy of a file: its refusal comes before everything else.
    fn damaged_file(&mut self, random: &mut Random, words: &[u32]) {
        let number = verdict(words);
        if number > 0 {
            self.refuses(random, Asked { words, variable: 0, work: [5, 5] }, number);
        }
    }
}

fn main() {
    let arguments: Vec<String> = env::args().skip(1).collect();
    let arguments: Vec<&str> = arguments.iter().map(String::as_str).collect();
    let parsed = match arguments[..] {
        [seed, count, size] => (|| Some((seed.parse().ok()?, count.parse().ok()?, Size::named(size)?)))(),
        _ => None,
    };
    let Some((seed, count, size)) = parsed else {
        eprintln!("usage: memory SEED COUNT small|medium|large|memory");
        exit(2);
    };
    let count: u64 = count;
    let mut random = Random::new(&[seed]);
    let mut run = Run::default();
    for number in 0..count {
        let words = file(seed, number, size);
        run.file(&mut random, &words);
        run.damaged_file(&mut random, &damage(seed, number, &words));
    }
    run.counts.print();
    println!("0 differences");
}
