//! Sheets with one word changed, with other characters cut, and of other
//! lengths.

use files::layout::File;
use files::sheet::{check, last_words};
use generate::random::Random;
use generate::{file, Size};
use oracle::right::{right, Right};

use crate::differs;
use crate::lent::Lent;
use crate::library::check_sheet;
use crate::trees::work_words;

/// A file with what is right for it, and what its sheets were answered with.
struct Checked<'a> {
    words: &'a [u32],
    right: &'a Right,
    room: usize,
    counts: &'a mut [u64; 14],
    lent: &'a mut Lent,
}

impl Checked<'_> {
    /// What the check answers, once it is the plain reading's.
    fn compare(&mut self, sheet: &[u32]) -> u32 {
        let file = File::open(self.words).expect("it is a file");
        let number = check(&file, sheet, &self.right.lines);
        self.lent.of(0, 0, self.room);
        let said = check_sheet(self.words, sheet, &mut self.lent.room);
        if said != number || !self.lent.is_cleared() {
            differs(&format!("checked: {said} and not {number}"), self.words, sheet);
        }
        self.counts[number as usize] += 1;
        number
    }

    /// Every string with one more character cut, with one less and with none:
    /// refused with 13, or where uses run in a circle with 12.
    fn cut_changed(&mut self, cut: &mut [u64; 14], sheet: &mut [u32]) {
        let number = if self.right.ranks.is_some() { 13 } else { 12 };
        for at in last_words(&self.right.lines) {
            let right = sheet[at];
            let words = match right {
                0 | 1 => vec![right + 2],
                _ => vec![right + 2, right - 2, right % 2],
            };
            for word in words {
                sheet[at] = word;
                if self.compare(sheet) != number {
                    differs(&format!("other characters cut, and not {number}"), self.words, sheet);
                }
                cut[number as usize] += 1;
            }
            sheet[at] = right;
        }
    }

    /// Every word in turn: 0, one more, one less, another word of the sheet.
    fn words_changed(&mut self, random: &mut Random, sheet: &mut [u32]) {
        for at in 0..sheet.len() {
            let right = sheet[at];
            let other = sheet[random.below(sheet.len() as u32) as usize];
            for word in [0, right.wrapping_add(1), right.wrapping_sub(1), other] {
                sheet[at] = word;
                self.compare(sheet);
            }
            sheet[at] = right;
        }
    }

    /// Every shorter length, and a word more.
    fn lengths_changed(&mut self, random: &mut Random, sheet: &[u32]) {
        for length in 0..sheet.len() {
            self.compare(&sheet[..length]);
        }
        for word in [0, 1, random.below(u32::MAX)] {
            self.compare(&[sheet, &[word]].concat());
        }
    }
}

pub fn run(seed: u64, count: u64, size: Size) {
    let mut random = Random::new(&[seed]);
    let [mut counts, mut cut] = [[0; 14]; 2];
    let mut files = 0;
    let mut lent = Lent::default();
    for number in 0..count {
        let words = file(seed, number, size);
        let Some(right) = right(&words) else {
            continue;
        };
        let none = vec![0; right.lines.types.len()];
        let mut sheet = right.sheet(right.ranks.as_ref().unwrap_or(&none));
        let mut checked = Checked {
            words: &words,
            right: &right,
            room: work_words(&words)[1] as usize,
            counts: &mut counts,
            lent: &mut lent,
        };
        checked.words_changed(&mut random, &mut sheet);
        checked.cut_changed(&mut cut, &mut sheet);
        checked.lengths_changed(&mut random, &sheet);
        files += 1;
    }
    println!(
        "{files} files: {} pass, {} refused 11, {} refused 12, {} refused 13",
        counts[0], counts[11], counts[12], counts[13]
    );
    println!("of these with other characters cut alone: {} refused 12, {} refused 13", cut[12], cut[13]);
}
