//! `convert SEED COUNT`: for the directed pairs of shape and constant and for
//! random ones, COUNT in all or somewhat more, what the proved static library
//! answers and leaves in the lent words, against the Rust's value of that pair:
//! its own, the characters cut of a string left out, and with the characters cut
//! (oracle/oracle/src/cut.rs); then numbers that aren't there, outs that are too short and refused
//! files, against document 01. Fails on any difference.

use std::env;
use std::process::exit;

use files::memory::STRING;
use files::sheet::leave_out_cut;
use files::verdict::verdict;
use generate::damage::damage;
use generate::pairs::Pairs;
use generate::random::Random;
use oracle::cut::counted;
use oracle::outcome::{outcome, Outcome};

extern "C" {
    /// A slice passes as a pointer and a length (crates/start_values).
    fn wirkesu_convert(
        file: *const u32,
        length: usize,
        shape: u32,
        constant: u32,
        out: *mut u32,
        out_length: usize,
    ) -> u64;
}

/// What stands in a lent slice before a call.
const LENT: [u32; 9] = [
    0xA5A5_A5A5,
    u32::MAX,
    7,
    0x8000_0000,
    0xFFFF,
    0x0123_4567,
    0xDEAD_BEEF,
    3,
    0x7FFF_FFFF,
];

/// A node has so many words.
const NODE_WORDS: usize = 6;

/// Document 01's refusals of a number that isn't there and of a short slice.
const NOT_THERE: u32 = 7;
const SHORT: u32 = 10;

/// A refusal stands in the high word of an answer.
fn refused(number: u32) -> u64 {
    u64::from(number) << 32
}

type Node = [u32; NODE_WORDS];

/// A constant's value at a place: the Rust's own, and with the characters cut.
#[derive(Clone, Copy)]
struct Value {
    own: Node,
    counted: Node,
}

/// What was compared.
#[derive(Default)]
struct Counts {
    /// For each kind of shape, pairs with a value and pairs with none.
    pairs: [[u64; 2]; 17],
    /// Outs too short: for a value, and where there is none.
    short: [u64; 2],
    /// Refusals 1 to 7.
    refused: [u64; 8],
    cut_strings: u64,
}

impl Counts {
    fn pairs(&self) -> u64 {
        self.pairs.iter().flatten().sum()
    }

    fn report(&self) {
        println!("{} pairs: by kind of shape, values and none", self.pairs());
        println!("each value once as the Rust's own without the characters cut, once with these; strings cut: {}", self.cut_strings);
        for (kind, [values, none]) in self.pairs.iter().enumerate() {
            println!("{kind}: {values}, {none}");
        }
        let [values, none] = self.short;
        println!("short outs: {values} with a value, {none} with none");
        println!("refusals 1 to 7: {:?}", &self.refused[1..]);
    }
}

/// An out with this node at its front.
fn holding(node: Option<Node>) -> [u32; LENT.len()] {
    let mut out = LENT;
    if let Some(node) = node {
        out[..NODE_WORDS].copy_from_slice(&node);
    }
    out
}

/// Calls the library with an out of `length` words, and ends the run unless
/// it answers `answer` and leaves the value at the front of out.
fn compare(file: &[u32], shape: u32, constant: u32, length: usize, answer: u64, value: Option<Value>) {
    let mut out = LENT;
    let lent = &mut out[..length];
    // The library reads the file's words, writes words of out, and keeps nothing.
    let answered = unsafe {
        wirkesu_convert(
            file.as_ptr(),
            file.len(),
            shape,
            constant,
            lent.as_mut_ptr(),
            lent.len(),
        )
    };
    let mut without = out;
    if value.is_some() {
        leave_out_cut(&mut without[..NODE_WORDS]);
    }
    let is_own = without == holding(value.map(|value| value.own));
    let expected = holding(value.map(|value| value.counted));
    if answered != answer || !is_own || out != expected {
        eprintln!("shape {shape}, constant {constant}, out of {length}: {answered} {out:?}");
        eprintln!("and not {answer} {expected:?}; the file: {file:?}");
        exit(1);
    }
}

/// The Rust's value of each pair, or none.
fn values(pairs: &Pairs) -> Vec<Option<Value>> {
    let scalar = |tree: Vec<Node>| {
        assert_eq!(tree.len(), 1, "a scalar is one node");
        tree[0]
    };
    let mut values = Vec::new();
    for question in pairs.questions() {
        let Outcome::Answered(answers) = outcome(&question) else {
            eprintln!("the Rust does not answer {question:?}");
            exit(1);
        };
        let counted = counted(&question, &answers).unwrap_or_else(|message| panic!("{message}: {question:?}"));
        for (own, counted) in answers.variables.into_iter().zip(counted.variables) {
            let [own, counted] = [own, counted].map(|tree| tree.map(scalar));
            values.push(own.zip(counted).map(|(own, counted)| Value { own, counted }));
        }
    }
    values
}

/// Every pair with room for its node, some of them with too little besides.
fn compare_pairs(counts: &mut Counts, random: &mut Random, pairs: &Pairs) {
    let file = pairs.words();
    let values = values(pairs);
    assert_eq!(values.len(), pairs.all().len(), "a value for each pair");
    for ((shape, constant), value) in pairs.all().into_iter().zip(values) {
        let kind = pairs.shape(shape)[0] as usize;
        let none = usize::from(value.is_none());
        let length = random.between(NODE_WORDS as u32, LENT.len() as u32) as usize;
        compare(&file, shape, constant, length, [1, 0][none], value);
        counts.pairs[kind][none] += 1;
        let is_cut = |value: Value| value.counted[1] == STRING && value.counted[5] > 1;
        counts.cut_strings += u64::from(value.is_some_and(is_cut));
        if random.percent(10) {
            let length = random.below(NODE_WORDS as u32) as usize;
            let answer = [refused(SHORT), 0][none];
            compare(&file, shape, constant, length, answer, None);
            counts.short[none] += 1;
        }
    }
}

/// Numbers past the shapes or past the constants, in outs of any length.
fn compare_numbers(counts: &mut Counts, random: &mut Random, pairs: &Pairs) {
    let file = pairs.words();
    let (shapes, constants) = (pairs.shapes(), pairs.constants());
    for _ in 0..8 {
        let past = random.pick(&[0, 1, 2, 1000, u32::MAX - shapes - constants]);
        let (shape, constant) = match random.below(3) {
            0 => (shapes + past, random.below(constants)),
            1 => (random.below(shapes), constants + past),
            _ => (shapes + past, constants + past),
        };
        let length = random.below(LENT.len() as u32 + 1) as usize;
        compare(&file, shape, constant, length, refused(NOT_THERE), None);
        counts.refused[NOT_THERE as usize] += 1;
    }
}

/// Damaged copies of the file that are refused, with any numbers.
fn compare_damaged(counts: &mut Counts, random: &mut Random, number: u64, pairs: &Pairs) {
    for copy in 0..8 {
        let file = damage(random.word(), number + copy, &pairs.words());
        let refusal = verdict(&file);
        if refusal == 0 {
            continue;
        }
        let shape = random.below(pairs.shapes() + 2);
        let constant = random.below(pairs.constants() + 2);
        let length = random.below(LENT.len() as u32 + 1) as usize;
        compare(&file, shape, constant, length, refused(refusal), None);
        counts.refused[refusal as usize] += 1;
    }
}

fn main() {
    let arguments: Vec<u64> = env::args().skip(1).filter_map(|a| a.parse().ok()).collect();
    let [seed, count] = arguments[..] else {
        eprintln!("usage: convert SEED COUNT");
        exit(2);
    };
    let mut random = Random::new(&[seed]);
    let mut counts = Counts::default();
    let directed = Pairs::directed().into_iter();
    let drawn = (0..).map(|number| Pairs::random(seed, number));
    for (number, pairs) in (0..).zip(directed.chain(drawn)) {
        if counts.pairs() >= count {
            break;
        }
        compare_pairs(&mut counts, &mut random, &pairs);
        compare_numbers(&mut counts, &mut random, &pairs);
        compare_damaged(&mut counts, &mut random, number, &pairs);
    }
    counts.report();
}
