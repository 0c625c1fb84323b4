//! Bytes for the reader of start memory (document 02, Q-1): such as a tree of
//! a variable's parts could be written as, and others next to them.

use crate::random::Random;
use files::memory::forms::{Form, Number};
use files::memory::parts::Part;
use files::memory::{ARRAY, NULL, STRUCTURE};

/// Bits of a binary32 worth having: ends, subnormals, infinities, no numbers.
const REALS: [u32; 10] = [
    0x0000_0000,
    0x8000_0000,
    0x0000_0001,
    0x007F_FFFF,
    0x0080_0000,
    0x7F7F_FFFF,
    0x7F80_0000,
    0xFF80_0000,
    0x7F80_0001,
    0xFFC0_0000,
];

/// A string longer than this is filled with few characters.
const LONG: u16 = 40;

/// Bytes shorter than this are tried in every length.
const FEW: usize = 12;

/// Bytes of the right number for a tree of these parts, mostly such as one is
/// written as.
pub fn invented(random: &mut Random, parts: &[Part]) -> Vec<u8> {
    parts.iter().flat_map(|part| leaf(random, part)).collect()
}

fn leaf(random: &mut Random, part: &Part) -> Vec<u8> {
    match (&part.form, part.node[1]) {
        (_, ARRAY | STRUCTURE) => Vec::new(),
        (Form::Reference, _) | (_, NULL) => vec![0; 4],
        (Form::Bool, _) => vec![random.below(2) as u8],
        (Form::Number(number), _) => integer(random, number),
        (Form::Real, _) => match random.percent(30) {
            true => random.pick(&REALS).to_le_bytes().to_vec(),
            false => (random.word() as u32).to_le_bytes().to_vec(),
        },
        (Form::LongReal, _) => random.word().to_le_bytes().to_vec(),
        (Form::Text(most, width), _) => text(random, *most, *width),
        // Not always the first place of its member.
        (Form::Enumeration(members), _) => {
            let place = random.below(members.len().max(1) as u32);
            (place as u16).to_le_bytes().to_vec()
        }
        (Form::Nothing, _) => Vec::new(),
    }
}

/// An end of the bounds, next to one, or between.
fn integer(random: &mut Random, number: &Number) -> Vec<u8> {
    let (least, greatest) = (number.least, number.greatest);
    let value = match random.below(6) {
        0 => least,
        1 => greatest,
        2 => least - 1,
        3 => greatest + 1,
        _ => least + random.word() as i128 % (greatest - least + 1).max(1),
    };
    value.to_le_bytes()[..number.bytes].to_vec()
}

fn text(random: &mut Random, most: u16, width: u32) -> Vec<u8> {
    let length = match most > LONG {
        true => random.pick(&[0, 1, 3]),
        false => random.below(u32::from(most) + 1) as u16,
    };
    let each = if width == 0 { 1 } else { 2 };
    let mut bytes = [most.to_le_bytes(), length.to_le_bytes()].concat();
    for _ in 0..each * usize::from(length) {
        bytes.push(random.below(256) as u8);
    }
    bytes.resize(4 + each * usize::from(most), 0);
    bytes
}

/// Bytes next to these: one changed, two exchanged, fewer and more; every
/// shorter length of few bytes.
pub fn damaged(random: &mut Random, bytes: &[u8]) -> Vec<Vec<u8>> {
    let mut all = vec![[bytes, &[0]].concat(), [bytes, &[random.below(256) as u8]].concat()];
    let count = bytes.len();
    if count == 0 {
        return all;
    }
    let at = |random: &mut Random| random.below(count as u32) as usize;
    for change in 0..4 {
        let mut changed = bytes.to_vec();
        let place = at(random);
        match change {
            0 => changed[place] = random.below(256) as u8,
            1 => changed[place] ^= 1 << random.below(8),
            2 => changed[place] = changed[place].wrapping_add(1),
            _ => changed.swap(place, at(random)),
        }
        all.push(changed);
    }
    all.push(bytes[..count - 1].to_vec());
    if count <= FEW {
        all.extend((0..count - 1).map(|length| bytes[..length].to_vec()));
        all.push([bytes, &[0, 0]].concat());
    }
    all
}
