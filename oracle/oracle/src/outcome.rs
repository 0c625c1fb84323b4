//! What is printed for a file.

use answers::{Answers, Huge};
use files::layout::{File, SETTINGS};
use files::verdict::verdict;

/// What came of a file.
pub enum Outcome {
    /// It meets one of refusals 1 to 4, so it can't be read.
    Bad,
    /// Its default string length is one that the Rust isn't compiled for.
    OtherSettings,
    /// An answer is too large.
    Huge,
    Answered(Answers),
}

/// What comes of the file `words`. Refusals 5 and 6 don't keep the Rust from
/// answering.
pub fn outcome(words: &[u32]) -> Outcome {
    if let 1..=4 = verdict(words) {
        return Outcome::Bad;
    }
    let file = File::open(words).expect("refusal 1 is not met");
    let answer: fn(File) -> Result<Answers, Huge> = match file.record(SETTINGS, 0)[0] {
        1 => analyzer_1::answer,
        254 => analyzer_254::answer,
        65535 => analyzer_65535::answer,
        _ => return Outcome::OtherSettings,
    };
    match answer(file) {
        Ok(answers) => Outcome::Answered(answers),
        Err(Huge) => Outcome::Huge,
    }
}

/// The line for a file whose answer is too large.
pub const HUGE: &str = "huge\n";

impl Outcome {
    /// The lines that are printed behind the file's number.
    pub fn lines(&self) -> String {
        match self {
            Outcome::Bad => "bad\n".to_string(),
            Outcome::OtherSettings => "skip settings\n".to_string(),
            Outcome::Huge => HUGE.to_string(),
            Outcome::Answered(answers) => answers.lines(),
        }
    }

    /// How often a circle of alias bases without a block record was met.
    pub fn circles(&self) -> u64 {
        match self {
            Outcome::Answered(answers) => answers.circles,
            _ => 0,
        }
    }
}
