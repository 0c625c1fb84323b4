//! A text form of declaration files for people. A line with a section's
//! name, then a line for each record with its words in decimal; `#` begins
//! a comment. Sections stand in the file's order and may be left out where
//! they are empty. Words may be written as negative numbers, in two's
//! complement, as dimension bounds are.

use crate::layout::*;
use crate::records::Records;
use std::fmt::Write;

/// The words of the file that `text` describes, or what is wrong with it.
/// Only lengths are checked: a text may describe a file that is refused.
pub fn assemble(text: &str) -> Result<Vec<u32>, String> {
    let mut records = Records::default();
    let mut section = None;
    for (place, line) in text.lines().enumerate() {
        let line = line.split('#').next().unwrap_or("").trim();
        if line.is_empty() {
            continue;
        }
        let number = place + 1;
        if let Some(named) = NAMES.iter().position(|name| *name == line) {
            if section.is_some_and(|section| named <= section) {
                return Err(format!("line {number}: section {line} is out of order"));
            }
            section = Some(named);
            continue;
        }
        let section = section
            .ok_or_else(|| format!("line {number}: {line} stands before the first section"))?;
        let record = record(line, section).map_err(|error| format!("line {number}: {error}"))?;
        records.sections[section].push(record);
    }
    Ok(records.words())
}

/// The words of one line of `section`.
fn record(line: &str, section: usize) -> Result<Vec<u32>, String> {
    let words = line
        .split_whitespace()
        .map(word)
        .collect::<Result<Vec<u32>, String>>()?;
    match words.len() == WORDS[section] {
        true => Ok(words),
        false => Err(format!(
            "a record of {} has {} words, not {}",
            NAMES[section],
            WORDS[section],
            words.len()
        )),
    }
}

fn word(text: &str) -> Result<u32, String> {
    let number: i64 = text
        .parse()
        .map_err(|_| format!("{text} is neither a section nor a word"))?;
    if number < i64::from(i32::MIN) || number > i64::from(u32::MAX) {
        return Err(format!("{text} is not a word of 32 bits"));
    }
    Ok(number as u32)
}

/// The text of a file, or `None` where its words end before or after the
/// last section does.
pub fn show(words: &[u32]) -> Option<String> {
    let file = File::open(words)?;
    let mut text = String::new();
    for (section, name) in NAMES.iter().enumerate() {
        if file.count(section) == 0 {
            continue;
        }
        text.push_str(name);
        text.push('\n');
        for number in 0..file.count(section) {
            text.push_str(&shown(section, file.record(section, number)));
            text.push('\n');
        }
    }
    Some(text)
}

fn shown(section: usize, record: &[u32]) -> String {
    let mut line = String::new();
    for word in record {
        let space = if line.is_empty() { "" } else { " " };
        // Writing to a string doesn't fail.
        let _ = match section {
            DIMENSIONS => write!(line, "{space}{}", *word as i32),
            _ => write!(line, "{space}{word}"),
        };
    }
    line
}

#[cfg(test)]
mod tests {
    use super::*;

    const TEXT: &str = "settings\n254\nshapes\n0 0 0 0 0\ndimensions\n-1 3\n";

    #[test]
    fn assemble_when_sections_left_out_then_empty() {
        let words = assemble(TEXT).unwrap();
        let mut expected = vec![1, 254, 1, 0, 0, 0, 0, 0, 0, 0, 1, u32::MAX, 3];
        expected.extend([0; 9]);
        assert_eq!(words, expected);
        assert_eq!(show(&words).unwrap(), TEXT);
    }

    #[test]
    fn assemble_when_comments_then_left_out() {
        let text = "# a file\nsettings # one\n  254 # the default\n\n";
        assert_eq!(assemble(text), assemble("settings\n254"));
    }

    #[test]
    fn assemble_when_text_bad_then_error() {
        for text in [
            "254",
            "settings\n1 2",
            "settings\nx",
            "settings\n4294967296",
            "settings\n-2147483649",
            "shapes\nsettings\n254",
            "settings\n254\nsettings\n254",
            "colours",
        ] {
            assert!(assemble(text).is_err(), "{text}");
        }
    }

    #[test]
    fn show_when_words_end_elsewhere_then_none() {
        assert_eq!(show(&[1, 2, 3]), None);
    }
}
