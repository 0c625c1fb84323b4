//! `measure_tree BEFORE PART NEW`: in a structure with BEFORE leaves before it, a
//! part of PART nodes gives way to a tree of NEW nodes. So many leaves follow it
//! that the larger of the whole trees has 2,048 nodes. Then as many words as
//! have to move are copied, by the proved library and by Rust. Prints their
//! number and fails where any word is wrong. `run` counts the instructions.

use std::env;
use std::process::exit;

const MOST_NODES: usize = 2048;
const NODE_WORDS: usize = 6;

extern "C" {
    /// A slice passes as a pointer and a length (crates/tree_c).
    fn wirkesu_tree_replace(
        out: *mut u32,
        length: usize,
        tree_begin: usize,
        tree_end: usize,
        part_begin: usize,
        part_end: usize,
        fresh_begin: usize,
        fresh_end: usize,
    ) -> usize;

    fn wirkesu_tree_copy(
        from: *const u32,
        from_length: usize,
        a: usize,
        count: usize,
        out: *mut u32,
        out_length: usize,
        at: usize,
    ) -> usize;
}

#[no_mangle]
#[inline(never)]
fn rust_copy(from: &[u32], out: &mut [u32]) {
    out.copy_from_slice(from);
}

/// An array of so many nodes in all, its leaves numbered from `first`.
fn array(nodes: usize, first: u32) -> Vec<u32> {
    let mut words = vec![first, 13, 0, nodes as u32 - 1, 0, 0];
    words.extend(leaves(nodes - 1, first));
    words
}

fn leaves(count: usize, first: u32) -> Vec<u32> {
    (0..count as u32)
        .flat_map(|i| [first + i, 1, 0, 7 * i, 0, 0])
        .collect()
}

/// The words that the tree must have, and how many of them move.
fn replaced(before: usize, part: usize, new: usize) -> (Vec<u32>, usize) {
    let after = MOST_NODES - 1 - before - part.max(new);
    let head = [0, 14, 0, (before + 1 + after) as u32, 0, 0];
    let front = [&head[..], &leaves(before, 10_000)].concat();
    let back = leaves(after, 20_000);
    let fresh = array(new, 40_000);
    let tree = [&front[..], &array(part, 30_000), &back].concat();
    let mut out = [&tree[..], &fresh, &vec![5; back.len()]].concat();
    let part_end = front.len() + part * NODE_WORDS;
    // The library reads and writes the slice's words and keeps nothing.
    let end = unsafe {
        wirkesu_tree_replace(
            out.as_mut_ptr(),
            out.len(),
            0,
            tree.len(),
            front.len(),
            part_end,
            tree.len(),
            tree.len() + fresh.len(),
        )
    };
    let right = [&front[..], &fresh, &back].concat();
    if out[..end] != right {
        eprintln!("the part is not replaced");
        exit(1);
    }
    // What follows the part stays where it is if the new tree is just as long.
    let tail = if part == new { 0 } else { back.len() };
    (right, fresh.len() + tail)
}

/// The last so many words, copied in both ways.
fn copied(words: &[u32], count: usize) {
    let from = words.len() - count;
    let (mut ours, mut theirs) = (vec![0; count], vec![0; count]);
    // As above.
    let end = unsafe {
        wirkesu_tree_copy(
            words.as_ptr(),
            words.len(),
            from,
            count,
            ours.as_mut_ptr(),
            count,
            0,
        )
    };
    rust_copy(&words[from..], &mut theirs);
    if end != count || ours != words[from..] || theirs != ours {
        eprintln!("the words are not copied");
        exit(1);
    }
}

fn main() {
    let arguments: Vec<usize> = env::args().skip(1).filter_map(|a| a.parse().ok()).collect();
    let [before, part, new] = arguments[..] else {
        eprintln!("usage: measure_tree BEFORE PART NEW");
        exit(2);
    };
    let (words, moved) = replaced(before, part, new);
    copied(&words, moved);
    println!("{moved}");
}
