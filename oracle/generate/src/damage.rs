//! Damaged copies of files: words, counts, links, runs, kinds and lengths
//! changed so that each refusal of document 01 is met often.

use crate::random::Random;
use files::layout::*;
use files::records::Records;
use files::verdict::verdict;

/// What a damaged copy is to meet, and how often: no refusal, each of the
/// refusals 1 to 6, or whatever comes of it.
const AIMS: [u32; 8] = [24, 12, 9, 17, 20, 8, 6, 4];

/// The aim that takes whatever comes.
const ANY: u32 = 7;

/// How many copies are tried before one that misses the aim is taken.
const TRIES: u32 = 40;

/// The damaged copy of `words`, which are file `number` of a stream.
pub fn damage(seed: u64, number: u64, words: &[u32]) -> Vec<u32> {
    let mut random = Random::new(&[seed, number, 0x64_61_6D]);
    let aim = random.weighted(&AIMS) as u32;
    let mut copy = words.to_vec();
    for _ in 0..TRIES {
        copy = damaged(&mut random, aim, words);
        if copy != words && (aim == ANY || verdict(&copy) == aim) {
            break;
        }
    }
    copy
}

/// One damaged copy that may meet `aim`.
fn damaged(random: &mut Random, aim: u32, words: &[u32]) -> Vec<u32> {
    let Some(file) = File::open(words) else {
        return length(random, words);
    };
    let mut records = Records::of(&file);
    match aim {
        1 => return length(random, words),
        2 => too_many_records(random, &mut records),
        3 | 4 => word(random, &mut records),
        5 => alike_shape(random, &mut records),
        6 => long_array(random, &mut records),
        _ => {
            for _ in 0..random.between(1, 3) {
                word(random, &mut records);
            }
        }
    }
    records.words()
}

/// A word added, taken away or, as one of the counts, changed.
fn length(random: &mut Random, words: &[u32]) -> Vec<u32> {
    let mut copy = words.to_vec();
    let place = random.below(words.len() as u32 + 1) as usize;
    match random.below(6) {
        0 => copy.truncate(place),
        1 => copy.push(random.pick(&[0, 1, u32::MAX])),
        2 => copy.insert(place, random.pick(&[0, 1, 2])),
        3 if place < copy.len() => {
            copy.remove(place);
        }
        4 => copy.truncate(words.len().saturating_sub(1)),
        _ => count(random, &mut copy),
    }
    copy
}

/// Changes one of the counts.
fn count(random: &mut Random, words: &mut [u32]) {
    let Some(file) = File::open(words) else {
        return;
    };
    let section = random.below(SECTIONS as u32) as usize;
    let place: usize = (0..section)
        .map(|before| 1 + file.count(before) * WORDS[before])
        .sum();
    let old = words[place];
    words[place] = random.pick(&[
        old.wrapping_add(1),
        old.wrapping_sub(1),
        0,
        old.wrapping_mul(2),
        u32::MAX,
        1 << 31,
        // Times the words of a record these come to a small number again
        // where they are cut to 32 bits.
        (u32::MAX / WORDS[section] as u32).wrapping_add(1),
    ]);
}

/// No Settings record or two, or a section one record past its limit.
fn too_many_records(random: &mut Random, records: &mut Records) {
    let settings = records.sections[SETTINGS].clone();
    match random.below(10) {
        0..=3 => records.sections[SETTINGS].clear(),
        4..=7 => records.sections[SETTINGS].extend(settings),
        _ => {
            let section = random.between(1, 12) as usize;
            let record = match records.sections[section].last() {
                Some(record) => record.clone(),
                None => vec![0; WORDS[section]],
            };
            records.sections[section].resize(MOST[section] + 1, record);
        }
    }
}

/// Changes one word of one record.
fn word(random: &mut Random, records: &mut Records) {
    // Another default length is mostly accepted, and the oracle has three
    // only: seldom changed.
    let first = if random.percent(10) { SETTINGS } else { SHAPES };
    let filled: Vec<usize> = (first..SECTIONS)
        .filter(|section| !records.sections[*section].is_empty())
        .collect();
    if filled.is_empty() {
        return;
    }
    let section = random.pick(&filled);
    let counts: Vec<u32> = (0..SECTIONS).map(|other| records.count(other)).collect();
    let number = random.below(counts[section]) as usize;
    let word = random.below(WORDS[section] as u32) as usize;
    let old = records.sections[section][number][word];
    let pointed = counts[random.below(SECTIONS as u32) as usize];
    records.sections[section][number][word] = match random.below(12) {
        0 => 0,
        1 => 1,
        2 => u32::MAX,
        3 => old.wrapping_add(1),
        4 => old.wrapping_sub(1),
        5 => pointed,
        6 => pointed + 1,
        7 => old ^ (1 << random.below(32)),
        8 => random.below(18),
        9 => random.pick(&[8, 16, 32, 64, 65_535, 65_536]),
        10 => number as u32,
        _ => random.below(pointed + 2),
    };
}

/// Appends a shape that is like one that is there, its run in another place
/// where it has one.
fn alike_shape(random: &mut Random, records: &mut Records) {
    if records.sections[SHAPES].is_empty() {
        return;
    }
    let number = random.below(records.count(SHAPES)) as usize;
    let mut shape = records.sections[SHAPES][number].clone();
    let (section, word) = match shape[0] {
        10 => (MEMBERS, 1),
        11 => (SHAPE_FIELDS, 1),
        12 => (DIMENSIONS, 2),
        _ => (SHAPES, 0),
    };
    if section != SHAPES && random.percent(70) {
        let (first, count) = (shape[word] as usize, shape[word + 1] as usize);
        let listed = records.sections[section].get(first..first.saturating_add(count));
        if let Some(listed) = listed.map(<[_]>::to_vec) {
            shape[word] = records.count(section);
            records.sections[section].extend(listed);
        }
    }
    if shape[0] == 13 && random.percent(70) {
        for word in [2, 3] {
            let constant = records.sections[CONSTANTS].get(shape[word] as usize);
            if let Some(constant) = constant.cloned() {
                shape[word] = records.count(CONSTANTS);
                records.sections[CONSTANTS].push(constant);
            }
        }
    }
    records.sections[SHAPES].push(shape);
}

/// An array shape of more than 65,536 elements: a dimension made longer, or
/// a new shape.
fn long_array(random: &mut Random, records: &mut Records) {
    let dimensions = match random.below(3) {
        0 => vec![vec![1, 65_537]],
        1 => vec![vec![1, 256], vec![0, 256]],
        _ => vec![vec![1 << 31, i32::MAX as u32]; 3],
    };
    let count = records.count(DIMENSIONS);
    if count > 0 && random.percent(60) {
        let number = random.below(count) as usize;
        let lower = records.sections[DIMENSIONS][number][0] as i32;
        let upper = lower.saturating_add(random.pick(&[65_535, 65_536, 70_000]));
        records.sections[DIMENSIONS][number][1] = upper as u32;
        return;
    }
    let listed = dimensions.len() as u32;
    records.sections[DIMENSIONS].extend(dimensions);
    if records.count(SHAPES) > 0 {
        records.push(SHAPES, &[12, 0, count, listed, 0]);
    }
}

#[cfg(test)]
mod tests {
    use super::*;
    use crate::{file, Size};

    #[test]
    fn damage_when_many_files_then_every_verdict_met() {
        let mut met = [0; 7];
        for number in 0..2000 {
            let words = file(1, number, Size::Small);
            let copy = damage(1, number, &words);
            assert_eq!(copy, damage(1, number, &words));
            met[verdict(&copy) as usize] += 1;
            // A damaged copy may be damaged again.
            damage(2, number, &copy);
        }
        assert!(met.iter().all(|count| *count >= 80), "{met:?}");
    }

    #[test]
    fn damage_when_not_a_file_then_no_panic() {
        for words in [vec![], vec![0], vec![u32::MAX; 30], vec![0; 14], vec![1; 9]] {
            for number in 0..200 {
                damage(3, number, &words);
            }
        }
    }
}
