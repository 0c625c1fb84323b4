//! The input of the program `sheet_vectors` for the framed files on standard
//! input. For each file its words after their count, what the writer refuses (0
//! or 9), the words of the sheet after their count, and changes of one word
//! after their count: the word's place, what it becomes, and what the check then
//! answers. What that program prints goes to standard error: how many answers
//! are right, two for each file and one for each change.

use std::io::{self, Write};

use files::frames;
use files::layout::File;
use files::sheet::check;
use oracle::right::{right, Right};

/// Changes of each sheet.
const CHANGES: u32 = 12;

/// The writer refuses a file whose uses run in a circle.
const CIRCLE: u32 = 9;

/// Places all over the sheet; in turn 0, one more, one less, another word.
fn changes(file: &File, right: &Right, sheet: &[u32]) -> Vec<u32> {
    let mut words = Vec::new();
    for change in 0..CHANGES {
        let at = (change as usize * 7919 + sheet.len() / 3) % sheet.len();
        let old = sheet[at];
        let other = sheet[(at * 31 + 1) % sheet.len()];
        let word = [0, old.wrapping_add(1), old.wrapping_sub(1), other][change as usize % 4];
        let mut changed = sheet.to_vec();
        changed[at] = word;
        words.extend([at as u32, word, check(file, &changed, &right.lines)]);
    }
    words
}

fn write_words(output: &mut impl Write, words: &[u32]) -> io::Result<()> {
    words.iter().try_for_each(|word| output.write_all(&word.to_le_bytes()))
}

fn main() -> io::Result<()> {
    let mut input = io::stdin().lock();
    let mut output = io::stdout().lock();
    let mut answers = 0;
    while let Some(words) = frames::read(&mut input)? {
        let right = right(&words).ok_or(io::Error::other("a file without an answer of the Rust"))?;
        let file = File::open(&words).expect("it is a file");
        let none = vec![0; right.lines.types.len()];
        let refused = if right.ranks.is_some() { 0 } else { CIRCLE };
        let sheet = right.sheet(right.ranks.as_ref().unwrap_or(&none));
        frames::write(&mut output, &words)?;
        write_words(&mut output, &[refused])?;
        frames::write(&mut output, &sheet)?;
        write_words(&mut output, &[CHANGES])?;
        write_words(&mut output, &changes(&file, &right, &sheet))?;
        answers += 2 + CHANGES;
    }
    eprintln!("{answers}");
    output.flush()
}
