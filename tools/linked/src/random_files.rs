//! Files of random words.

use files::layout::{MOST, SECTIONS, SETTINGS, WORDS};
use generate::random::Random;

/// Keeps these files apart from the stream's other ones.
const STREAM: u64 = 0x7a11;

/// A few random words: every other file's sections end exactly where its
/// words do.
pub fn random_file(seed: u64, number: u64) -> Vec<u32> {
    let mut random = Random::new(&[seed, number, STREAM]);
    match number % 2 {
        0 => {
            let length = random.below(64);
            some_words(&mut random, length as usize)
        }
        _ => sections(&mut random),
    }
}

/// Most words are small, so that some are counts that fit.
fn some_words(random: &mut Random, count: usize) -> Vec<u32> {
    (0..count)
        .map(|_| {
            let mask = random.pick(&[0, 0, 1, 3, 15, 255, u32::MAX]);
            random.word() as u32 & mask
        })
        .collect()
}

/// Each section after its count. Few sections have records, so that some
/// files get past the rules for single words.
fn sections(random: &mut Random) -> Vec<u32> {
    let mut words = Vec::new();
    for section in 0..SECTIONS {
        let count = match section {
            SETTINGS => random.pick(&[1, 1, 1, 1, 1, 1, 0, 2]),
            _ => random.pick(&[0, 0, 0, 0, 0, 0, 0, 1, 1, 2]),
        };
        let count = match random.below(500) {
            0 => MOST[section] + 1,
            _ => count,
        };
        words.push(count as u32);
        words.extend(some_words(random, count * WORDS[section]));
    }
    words
}
