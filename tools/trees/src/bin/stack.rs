//! `stack`: how many bytes of stack the library takes for what nests as deep
//! as a file allows. For each kind of nesting the least stack is searched for
//! with which a child of this program answers. `stack memory`: the same for a
//! variable's tree, its start memory written and its start memory read.

#[path = "../library.rs"]
mod library;
// Its work words are asked for in `library`.
#[allow(dead_code)]
#[path = "../../../memory/src/library.rs"]
mod memory;

use std::env;
use std::process::{exit, Command, Stdio};
use std::thread;

use library::{ask, work_words, What};
use memory::{read_memory, write_memory};

/// No block record, or inline.
const NONE: u32 = u32::MAX;

/// The words of a file: each section after its count.
fn file(sections: [Vec<Vec<u32>>; 14]) -> Vec<u32> {
    let mut words = Vec::new();
    for section in sections {
        words.push(section.len() as u32);
        words.extend(section.concat());
    }
    words
}

/// A function block whose field is an array of the same function block, and a
/// variable with so many arrays in structures in arrays.
fn arrays(pairs: u32) -> Vec<u32> {
    let mut entries = vec![vec![2, 1, 0, 0]];
    for _ in 0..pairs {
        let last = entries.len() as u32 - 1;
        entries.push(vec![3, 0, last, 1]);
        entries.push(vec![2, 1, last + 1, 1]);
    }
    let last = entries.len() as u32 - 1;
    file([
        vec![vec![254]],
        vec![
            vec![1, 16, 0, 0, 0],
            vec![14, 9, 0, 0, 0],
            vec![12, 1, 0, 1, 0],
        ],
        vec![],
        vec![],
        vec![vec![1, 1]],
        vec![
            vec![0, 0, 0, 0, 0, 0, 0, 0, 0, NONE, 0],
            vec![1, 0, 0, 0, 9, 0, 0, 0, 1, 0, 1],
            vec![2, 0, 2, 0, 0, 0, 0, 0, 0, NONE, 0],
        ],
        vec![vec![1, 3, 0]],
        vec![],
        vec![vec![1, 4, 1, 0], vec![2, 4, 2, 1]],
        vec![
            vec![3, 1, 0, 0, 0, 0, 0, 0],
            vec![7, 2, 0, 0, last, 1, 0, 0],
        ],
        entries,
        vec![],
        vec![],
        vec![],
    ])
}

/// A variable of an array of INT that is filled by one of some entries.
fn array_of_int(entries: Vec<Vec<u32>>, first: u32) -> [Vec<Vec<u32>>; 14] {
    let mut sections: [Vec<Vec<u32>>; 14] = Default::default();
    sections[0] = vec![vec![254]];
    sections[1] = vec![vec![1, 16, 0, 0, 0], vec![12, 0, 0, 1, 0]];
    sections[4] = vec![vec![1, 1]];
    sections[5] = vec![
        vec![0, 0, 0, 0, 0, 0, 0, 0, 0, NONE, 0],
        vec![1, 0, 1, 0, 0, 0, 0, 0, 0, NONE, 0],
    ];
    sections[8] = vec![vec![1, 4, 2, 0]];
    sections[9] = vec![vec![9, 2, 0, 0, first, 1, 0, 0]];
    sections[10] = entries;
    sections[12] = vec![vec![1, 0, 5, 0, 0]];
    sections
}

/// So many repeats, one in the other.
fn repeats(depth: u32) -> Vec<u32> {
    let mut entries = vec![vec![0, 0, 0, 0]];
    for inner in 0..depth {
        entries.push(vec![6, 0, 1, inner + 1]);
    }
    let last = entries.len() as u32 - 1;
    file(array_of_int(entries, last))
}

/// An array of INT with one entry, an expression in so many parentheses.
fn parentheses(depth: u32) -> Vec<u32> {
    let mut expressions = vec![vec![0, 0]];
    for inner in 0..depth {
        expressions.push(vec![2, inner]);
    }
    let last = expressions.len() as u32 - 1;
    let mut sections = array_of_int(vec![vec![4, 0, last, 0]], 0);
    sections[11] = expressions;
    file(sections)
}

/// A type of so many structures, one in the other.
fn structures(depth: u32) -> Vec<u32> {
    let mut shapes = vec![vec![1, 16, 0, 0, 0]];
    let mut fields = Vec::new();
    for inner in 0..depth {
        shapes.push(vec![11, inner, 1, 0, 0]);
        fields.push(vec![1, inner, 0]);
    }
    let mut sections: [Vec<Vec<u32>>; 14] = Default::default();
    sections[0] = vec![vec![254]];
    sections[1] = shapes;
    sections[3] = fields;
    sections[5] = vec![vec![depth, 0, 0, 0, 0, 0, 0, 0, 0, NONE, 0]];
    sections[8] = vec![vec![1, 4, 1, 0]];
    sections[9] = vec![vec![3, 1, 0, 0, 0, 0, 0, 0]];
    file(sections)
}

/// So many types, each a structure of the one before, and a variable with as
/// many member lists, one in the other.
fn members(depth: u32) -> Vec<u32> {
    let mut sections: [Vec<Vec<u32>>; 14] = Default::default();
    sections[0] = vec![vec![254]];
    sections[1] = vec![vec![1, 16, 0, 0, 0]];
    sections[5] = vec![vec![0, 0, 0, 0, 0, 0, 0, 0, 0, NONE, 0]];
    for inner in 0..depth {
        sections[1].push(vec![11, inner, 1, 0, 0]);
        sections[3].push(vec![1, inner, 0]);
        sections[5].push(vec![inner + 1, 0, 0, 0, 5, 0, 0, inner, 1, NONE, 0]);
        sections[7].push(vec![1, inner]);
        sections[9].push(vec![0, inner + 1, 0, 0, 0, 0, 0, 0]);
        sections[10].push(match inner {
            0 => vec![0, 1, 0, 0],
            _ => vec![3, 1, inner - 1, 1],
        });
    }
    sections[8] = vec![vec![1, 4, depth + 1, depth]];
    sections[9].push(vec![8, depth + 1, 0, 0, depth - 1, 1, 0, 0]);
    sections[12] = vec![vec![1, 0, 5, 0, 0]];
    file(sections)
}

/// So many types, each an alias of the next.
fn types(depth: u32) -> Vec<u32> {
    let mut types = Vec::new();
    let mut initializers = vec![vec![3, 1, 0, 0, 0, 0, 0, 0]];
    for number in 0..depth {
        types.push(vec![0, 0, 0, 0, 1, 0, number + 2, 0, 0, NONE, 0]);
        initializers.push(vec![3, number + 2, 0, 0, 0, 0, 0, 0]);
    }
    types.push(vec![0, 0, 0, 0, 0, 0, 0, 0, 0, NONE, 0]);
    let mut sections: [Vec<Vec<u32>>; 14] = Default::default();
    sections[0] = vec![vec![254]];
    sections[1] = vec![vec![1, 16, 0, 0, 0]];
    sections[5] = types;
    sections[8] = vec![vec![1, 4, 1, 0]];
    sections[9] = initializers;
    file(sections)
}

/// A variable of so many subranges of INT, one over the other.
fn subranges(depth: u32) -> Vec<u32> {
    let mut sections: [Vec<Vec<u32>>; 14] = Default::default();
    sections[0] = vec![vec![254]];
    sections[1] = vec![vec![1, 16, 0, 0, 0]];
    sections[1].extend((0..depth).map(|base| vec![13, base, 0, 1, 0]));
    sections[5] = vec![vec![depth, 0, 0, 0, 0, 0, 0, 0, 0, NONE, 0]];
    sections[8] = vec![vec![1, 4, 1, 0]];
    sections[9] = vec![vec![3, 1, 0, 0, 0, 0, 0, 0]];
    sections[12] = vec![vec![1, 0, 5, 0, 0], vec![1, 0, 50, 0, 0]];
    file(sections)
}

/// A variable of so many arrays of one element, one in the other.
fn rows(depth: u32) -> Vec<u32> {
    let mut sections: [Vec<Vec<u32>>; 14] = Default::default();
    sections[0] = vec![vec![254]];
    sections[1] = vec![vec![1, 16, 0, 0, 0]];
    sections[1].extend((0..depth).map(|element| vec![12, element, 0, 1, 0]));
    sections[4] = vec![vec![1, 1]];
    sections[5] = vec![vec![depth, 0, 0, 0, 0, 0, 0, 0, 0, NONE, 0]];
    sections[8] = vec![vec![1, 4, 1, 0]];
    sections[9] = vec![vec![3, 1, 0, 0, 0, 0, 0, 0]];
    file(sections)
}

/// So many types, each a structure of the one before, whose defaults are known
/// when the next wants them, and a variable of the last.
fn defaults(depth: u32) -> Vec<u32> {
    let mut sections: [Vec<Vec<u32>>; 14] = Default::default();
    sections[0] = vec![vec![254]];
    sections[1] = vec![vec![1, 16, 0, 0, 0]];
    sections[5] = vec![vec![0, 0, 0, 0, 0, 0, 0, 0, 0, NONE, 0]];
    sections[9] = vec![vec![3, 1, 0, 0, 0, 0, 0, 0]];
    for inner in 0..depth {
        sections[1].push(vec![11, inner, 1, 0, 0]);
        sections[3].push(vec![1, inner, 1]);
        sections[5].push(vec![inner + 1, 0, 0, 0, 5, 0, 0, inner, 1, NONE, 0]);
        sections[7].push(vec![1, inner]);
        sections[9].push(vec![3, inner + 2, 0, 0, 0, 0, 0, 0]);
    }
    sections[8] = vec![vec![1, 4, depth + 1, depth]];
    file(sections)
}

/// No variable here has more bytes.
const BYTES: usize = 2048 * 4;

/// What is said of a variable: its tree, written or read.
fn answer(question: &str, words: &[u32], variable: u32, bytes: &mut [u8]) -> u64 {
    let [mut lines, mut room] = work_words(words).map(|count| vec![0; count as usize]);
    let mut out = vec![0; 2048 * 6];
    match question {
        "tree" => ask(What::Variable, words, variable, &mut out, &mut lines, &mut room),
        "written" => write_memory(words, variable, bytes, &mut lines, &mut room),
        _ => read_memory(words, variable, bytes, &mut out, &mut [], &mut lines, &mut room),
    }
}

/// A slice to write bytes to, or those to read.
fn lent(question: &str, words: &[u32], variable: u32) -> Vec<u8> {
    let mut bytes = vec![0; BYTES];
    if question == "read" {
        let code = answer("written", words, variable, &mut bytes);
        bytes.truncate(code as usize);
    }
    bytes
}

/// The last variable's answer, in a thread with so much stack.
fn run(question: String, words: Vec<u32>, variable: u32, stack: usize) {
    let mut bytes = lent(&question, &words, variable);
    let answered = thread::Builder::new()
        .stack_size(stack)
        .spawn(move || answer(&question, &words, variable, &mut bytes));
    let code = answered.expect("a thread").join().expect("an answer");
    // A value, too large, or arrays in structures whose last part is not held:
    // anything else means that the file is not what it should be.
    if !matches!(code >> 32, 0 | 8 | 14) {
        exit(3);
    }
}

fn passes(question: &str, kind: &str, depth: u32, bytes: usize) -> bool {
    let program = env::current_exe().expect("this program has a path");
    Command::new(program)
        .args([question, kind, &depth.to_string(), &bytes.to_string()])
        .stdout(Stdio::null())
        .stderr(Stdio::null())
        .status()
        .expect("it runs")
        .success()
}

/// The least stack that is enough, to 4 KiB.
fn least(question: &str, kind: &str, depth: u32) -> usize {
    let (mut low, mut high) = (0, 256 << 20);
    while high - low > 4096 {
        let middle = (low + high) / 2;
        if passes(question, kind, depth, middle) {
            high = middle;
        } else {
            low = middle;
        }
    }
    high
}

/// The file of a kind, and its last variable.
fn nested(kind: &str, depth: u32) -> (Vec<u32>, u32) {
    match kind {
        "arrays" => (arrays(depth), 1),
        "repeats" => (repeats(depth), 0),
        "parentheses" => (parentheses(depth), 0),
        "structures" => (structures(depth), 0),
        "members" => (members(depth), 0),
        "types" => (types(depth), 0),
        "subranges" => (subranges(depth), 0),
        "rows" => (rows(depth), 0),
        "defaults" => (defaults(depth), 0),
        _ => exit(2),
    }
}

fn measure_trees() {
    for (kind, most) in [
        ("arrays", 4095),
        ("repeats", 8191),
        ("parentheses", 4095),
        ("structures", 1023),
        ("members", 1023),
        ("types", 1023),
    ] {
        let base = least("tree", kind, 1);
        for depth in [most / 2, most] {
            let bytes = least("tree", kind, depth);
            let more = (bytes - base) / (depth as usize - 1);
            println!("{kind} {depth}: {bytes} bytes, {more} for each after the first");
        }
    }
}

/// Of arrays no more than a tree has nodes for.
fn measure_memory() {
    for (kind, most) in [
        ("structures", 1023),
        ("subranges", 1023),
        ("rows", 1023),
        ("members", 1023),
        ("types", 1023),
        ("defaults", 1023),
        ("arrays", 1022),
    ] {
        for depth in [1, most] {
            let [tree, written, read] = ["tree", "written", "read"].map(|question| least(question, kind, depth));
            println!("{kind} {depth}: tree {tree} bytes, written {written} bytes, read {read} bytes");
        }
    }
}

fn main() {
    let arguments: Vec<String> = env::args().skip(1).collect();
    match &arguments[..] {
        [] => measure_trees(),
        [memory] if memory == "memory" => measure_memory(),
        [question, kind, depth, bytes] => {
            let (words, variable) = nested(kind, depth.parse().expect("a depth"));
            run(question.clone(), words, variable, bytes.parse().expect("a number of bytes"));
        }
        _ => exit(2),
    }
}
