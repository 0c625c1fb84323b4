//! `cost TIMES memory STATIONS`, `cost TIMES strings COUNT`: a variable's tree,
//! its start memory written and these bytes read, by the proved static library
//! and by the Rust: its own tree, and a plain reading of document 02 over it.

use std::time::Duration;

use analyzer_254::parsed::Parsed;
use files::layout::*;
use files::memory::{read, write, Node};
use files::records::Records;

use crate::bytes::{read_memory, write_memory};
use crate::library::work_words;
use crate::{least, library_variable, timed, Lent, TREE};

/// The characters of a string.
const LENGTH: u32 = 254;

/// A variable of an array of so many strings, all of them full.
pub fn strings(count: u32) -> Vec<u32> {
    let mut records = Records::default();
    records.push(SETTINGS, &[LENGTH]);
    records.push(SHAPES, &[9, LENGTH + 1, 0, 0, 0]);
    records.push(SHAPES, &[12, 0, 0, 1, 0]);
    records.push(DIMENSIONS, &[1, count]);
    records.push(TYPES, &[0, 0, 0, 0, 0, 0, 0, 0, 0, INLINE, 0]);
    records.push(TYPES, &[1, 0, 1, 0, 0, 0, 0, 0, 0, INLINE, 0]);
    for character in 0..LENGTH {
        records.push(CHARACTERS, &[character]);
    }
    records.push(CONSTANTS, &[8, 0, 0, LENGTH, 0]);
    records.push(ENTRIES, &[0, 0, 0, 0]);
    records.push(ENTRIES, &[6, 0, count, 1]);
    records.push(INITIALIZERS, &[9, 2, 0, 0, 1, 1, 0, 0]);
    records.push(VARIABLES, &[1, 4, 2, 0]);
    records.words()
}

#[inline(never)]
fn library_write(words: &[u32], number: u32, bytes: &mut [u8], lent: &mut Lent) -> u64 {
    write_memory(words, number, bytes, &mut lent.lines, &mut lent.room)
}

#[inline(never)]
fn library_read(words: &[u32], number: u32, bytes: &[u8], characters: &mut [u32], lent: &mut Lent) -> u64 {
    read_memory(words, number, bytes, &mut lent.out, characters, &mut lent.lines, &mut lent.room)
}

#[inline(never)]
fn plain_write(file: &File, number: u32, tree: &[Node]) -> Result<Vec<u8>, u32> {
    write(file, number, tree)
}

#[inline(never)]
fn plain_read(file: &File, number: u32, tree: &[Node], bytes: &[u8]) -> Result<(Vec<u32>, Vec<u32>), u32> {
    read(file, number, tree, bytes)
}

/// A file with what is lent for one of its variables, and the variable's tree.
struct Asked<'a> {
    words: &'a [u32],
    file: File<'a>,
    number: u32,
    lent: Lent,
    tree: Vec<Node>,
}

fn asked(words: &[u32], number: u32) -> Asked<'_> {
    let [lines, room] = work_words(words).map(|count| vec![0; count as usize]);
    let mut lent = Lent { out: vec![0; TREE], lines, room };
    let count = library_variable(words, number, &mut lent) as usize;
    let nodes = lent.out[..6 * count].chunks_exact(6);
    let tree = nodes.map(|node| node.try_into().expect("six words")).collect();
    let file = File::open(words).expect("it is a file");
    Asked { words, file, number, lent, tree }
}

/// The same bytes and the same nodes and characters by both.
fn agree(asked: &mut Asked, bytes: &mut Vec<u8>, characters: &mut Vec<u32>) {
    let plain = plain_write(&asked.file, asked.number, &asked.tree).expect("it is written");
    let (nodes, text) = plain_read(&asked.file, asked.number, &asked.tree, &plain).expect("it is read");
    bytes.resize(plain.len(), 0);
    characters.resize(text.len(), 0);
    let said = library_write(asked.words, asked.number, bytes, &mut asked.lent);
    assert_eq!((said, &*bytes), (plain.len() as u64, &plain), "written");
    let said = library_read(asked.words, asked.number, bytes, characters, &mut asked.lent);
    assert_eq!(said as usize, asked.tree.len(), "read");
    assert!(asked.lent.out.starts_with(&nodes) && *characters == text, "read");
}

/// Tree, written, read.
fn by_library(asked: &mut Asked, bytes: &mut [u8], characters: &mut [u32], times: usize) -> [Duration; 3] {
    let Asked { words, number, lent, .. } = asked;
    [
        least(times, || timed(|| library_variable(words, *number, lent))),
        least(times, || timed(|| library_write(words, *number, bytes, lent))),
        least(times, || timed(|| library_read(words, *number, bytes, characters, lent))),
    ]
}

/// Tree, written, read; the latter two with the tree given.
fn by_rust(asked: &Asked, bytes: &[u8], times: usize) -> [Duration; 3] {
    let Asked { file, number, tree, .. } = asked;
    [
        least(times, || {
            let parsed = Parsed::of(*file);
            timed(|| parsed.rust_variable(*number as usize))
        }),
        least(times, || timed(|| plain_write(file, *number, tree))),
        least(times, || timed(|| plain_read(file, *number, tree, bytes))),
    ]
}

pub fn measure(words: &[u32], number: u32, times: usize) {
    let mut asked = asked(words, number);
    let (mut bytes, mut characters) = (Vec::new(), Vec::new());
    agree(&mut asked, &mut bytes, &mut characters);
    let (nodes, lines, room) = (asked.tree.len(), asked.lent.lines.len(), asked.lent.room.len());
    println!("{} words, {lines} and {room} work words, {nodes} nodes, {} bytes", words.len(), bytes.len());
    let [tree, written, read] = by_library(&mut asked, &mut bytes, &mut characters, times);
    println!("library: tree {tree:?}, tree and bytes written {written:?}, tree and bytes read {read:?}");
    let [tree, written, read] = by_rust(&asked, &bytes, times);
    println!("Rust: tree {tree:?}; plain: bytes written {written:?}, bytes read {read:?}");
    println!("Rust and plain: tree and bytes written {:?}, tree and bytes read {:?}", tree + written, tree + read);
}
