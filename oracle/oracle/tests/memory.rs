//! The plain reading of start memory (files/src/memory.rs) over the Rust's
//! trees: its places are the Rust's, and what is written is read back.

use files::layout::{File, CHARACTERS, SETTINGS, VARIABLES};
use files::memory::parts::{parts, Misfit, Part};
use files::memory::{read, write, Node};
use files::records::Records;
use generate::bytes::{damaged, invented};
use generate::random::Random;
use generate::Size;
use oracle::cut::counted;
use oracle::outcome::{outcome, Outcome};

/// The type of each node's place by the Rust, and of a shape's words, as text.
type Texts = (fn(File) -> Vec<Option<Vec<Option<String>>>>, fn(File, &[u32]) -> String);

fn texts(file: &File) -> Texts {
    match file.record(SETTINGS, 0)[0] {
        1 => (analyzer_1::places, analyzer_1::shape_text),
        254 => (analyzer_254::places, analyzer_254::shape_text),
        _ => (analyzer_65535::places, analyzer_65535::shape_text),
    }
}

/// A file's variables with their trees, characters cut in the words of strings.
fn trees(words: &[u32]) -> Vec<(u32, Vec<Node>)> {
    let Outcome::Answered(answers) = outcome(words) else {
        panic!("the Rust answers");
    };
    let answers = counted(words, &answers).expect("the Rust answers alike");
    let all = (0..).zip(answers.variables);
    all.filter_map(|(variable, tree)| Some((variable, tree?))).collect()
}

fn files(seed: u64, size: Size, count: u64) -> impl Iterator<Item = Vec<u32>> {
    (0..count).map(move |number| generate::file(seed, number, size))
}

#[test]
fn places_when_a_tree_is_walked_then_the_rusts() {
    let mut parts_met = 0;
    for words in files(11, Size::Memory, 1500).chain(files(12, Size::Small, 1500)) {
        let file = File::open(&words).expect("it is a file");
        let (places, shape_text) = texts(&file);
        let places = places(file);
        for (variable, tree) in trees(&words) {
            let expected = places[variable as usize].as_ref().expect("there is a tree");
            let parts = match parts(&file, variable, &tree) {
                Ok(parts) => parts,
                Err(misfit) => {
                    assert!(misfit != Misfit::NoPlace || expected.contains(&None), "{words:?}");
                    continue;
                }
            };
            let has_place = |part: &&Part| part.shape[0] != u32::MAX;
            let text = |part: &Part| Some(part).filter(has_place).map(|part| shape_text(file, &part.shape));
            let met: Vec<Option<String>> = parts.iter().map(text).collect();
            assert_eq!(met, *expected, "variable {variable} of {words:?}");
            parts_met += parts.len();
        }
    }
    assert!(parts_met > 10_000, "{parts_met} parts");
}

/// A file whose characters are others.
fn with_characters(words: &[u32], characters: &[u32]) -> Vec<u32> {
    let mut records = Records::of(&File::open(words).expect("it is a file"));
    records.sections[CHARACTERS] = characters.iter().map(|character| vec![*character]).collect();
    records.words()
}

/// Nodes that were read, with the names of the tree.
fn named(nodes: &[u32], tree: &[Node]) -> Vec<Node> {
    let nodes = nodes.as_chunks::<6>().0;
    assert_eq!(nodes.len(), tree.len());
    let pairs = nodes.iter().zip(tree);
    pairs.map(|(node, [name, ..])| [*name, node[1], node[2], node[3], node[4], node[5]]).collect()
}

/// Whether a node that was read is that of the tree but for its qualifier, a
/// rounded REAL, its literal's kind and width, its characters' place, and those
/// that were cut.
fn is_same(part: &Part, read: &Node) -> bool {
    let [_, kind, sign, low, high, last] = part.node;
    let bits = u64::from(high) << 32 | u64::from(low);
    match kind {
        2 => read[1..5] == [1, 0, low, high],
        3 if part.size() == 4 => f64::from(f64::from_bits(bits) as f32).to_bits() == u64::from(read[4]) << 32 | u64::from(read[3]),
        8 => read[1] == 8 && read[4..] == [high, last % 2],
        9 => read[1..5] == [9, 0, low, 0],
        _ => read[1..5] == [kind, sign, low, high],
    }
}

#[test]
fn read_when_written_then_the_same() {
    let mut written = 0;
    for words in files(13, Size::Memory, 1500) {
        let file = File::open(&words).expect("it is a file");
        for (variable, tree) in trees(&words) {
            let Ok(bytes) = write(&file, variable, &tree) else {
                continue;
            };
            let (nodes, characters) = read(&file, variable, &tree, &bytes).expect("it was written");
            let nodes = named(&nodes, &tree);
            let parts = parts(&file, variable, &tree).expect("it is held");
            assert!(parts.iter().zip(&nodes).all(|(part, node)| is_same(part, node)), "{words:?}");
            let other = with_characters(&words, &characters);
            let other = File::open(&other).expect("it is a file");
            assert_eq!(write(&other, variable, &nodes), Ok(bytes), "variable {variable} of {words:?}");
            written += 1;
        }
    }
    assert!(written > 2000, "{written} trees");
}

#[test]
fn written_when_read_then_the_same_bytes() {
    let mut random = Random::new(&[14]);
    let mut met = 0;
    for words in files(14, Size::Memory, 800) {
        let file = File::open(&words).expect("it is a file");
        for variable in 0..file.count(VARIABLES) as u32 {
            let Some((_, tree)) = trees(&words).into_iter().find(|(number, _)| *number == variable) else {
                continue;
            };
            let Ok(parts) = parts(&file, variable, &tree) else {
                continue;
            };
            let bytes = invented(&mut random, &parts);
            let next = damaged(&mut random, &bytes);
            for bytes in [vec![bytes], next].concat() {
                let Ok((nodes, characters)) = read(&file, variable, &tree, &bytes) else {
                    continue;
                };
                let other = with_characters(&words, &characters);
                let other = File::open(&other).expect("it is a file");
                assert_eq!(write(&other, variable, &named(&nodes, &tree)), Ok(bytes), "variable {variable} of {words:?}");
                met += 1;
            }
        }
    }
    assert!(met > 2000, "{met} reads");
}
