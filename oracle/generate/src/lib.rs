//! Declaration files made at random. File `number` of the stream `seed`
//! depends on these and the size only, and meets no refusal of document 01.

pub mod bytes;
mod constants;
mod draft;
pub mod exhibits;
mod families;
pub mod lines;
mod order;
pub mod pairs;
pub mod random;
mod shapes;
mod types;
mod values;

use draft::Draft;
use files::layout::*;
use random::Random;

pub mod damage;

/// About how large a file is.
#[derive(Clone, Copy, Debug, PartialEq, Eq)]
pub enum Size {
    /// Mostly 60 to 400 words.
    Small,
    /// Up to some thousand words.
    Medium,
    /// Up to the limits of the sections.
    Large,
    /// As small, but made of what a variable's bytes depend on.
    Memory,
}

impl Size {
    /// The size with this name.
    pub fn named(name: &str) -> Option<Self> {
        match name {
            "small" => Some(Self::Small),
            "medium" => Some(Self::Medium),
            "large" => Some(Self::Large),
            "memory" => Some(Self::Memory),
            _ => None,
        }
    }
}

/// No item of a file needs more records of a section than this, but for
/// characters.
const ITEM_RECORDS: usize = 400;

/// File `number` of the stream `seed`.
pub fn file(seed: u64, number: u64, size: Size) -> Vec<u32> {
    let mut draft = Draft::new(Random::new(&[seed, number, size as u64]));
    let budget = budget(&mut draft.random, size);
    let first = match size {
        Size::Memory => families::memory_at(number),
        _ => families::at(number),
    };
    (first.make)(&mut draft);
    while draft.words() < budget && room_for_item(&draft) {
        let family = match size {
            Size::Memory => families::memory(&mut draft.random),
            _ => families::ordinary(&mut draft.random),
        };
        (family.make)(&mut draft);
    }
    if draft.random.percent(15) {
        families::surplus(&mut draft);
    }
    if size == Size::Large {
        match draft.random.below(8) {
            0 | 1 => {}
            2 => families::longest_strings(&mut draft),
            3 | 4 => families::many_levels(&mut draft),
            _ => families::fill_a_section(&mut draft),
        }
    }
    order::reorder(&mut draft);
    draft.records.words()
}

/// The name of the family that file `number` begins with.
pub fn family(number: u64) -> &'static str {
    families::at(number).name
}

/// How many families there are: file numbers that differ by this begin with
/// the same one.
pub fn families() -> usize {
    families::count()
}

/// About how many words a file is to have.
fn budget(random: &mut Random, size: Size) -> usize {
    let (least, greatest) = match size {
        Size::Small | Size::Memory => random.pick(&[(60, 100), (60, 150), (100, 180), (150, 300), (200, 330)]),
        Size::Medium => random.pick(&[(400, 1000), (1000, 4000)]),
        Size::Large => random.pick(&[(4000, 12_000), (12_000, 60_000)]),
    };
    random.between(least, greatest) as usize
}

/// Whether every section has room for the records of one more item.
fn room_for_item(draft: &Draft) -> bool {
    (SHAPES..SECTIONS).all(|section| {
        let room = match section {
            SHAPES | TYPES => 100,
            _ => ITEM_RECORDS,
        };
        draft.has_room(section, room)
    })
}

#[cfg(test)]
mod tests;
