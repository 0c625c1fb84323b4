//! Slices that are lent to the library. What work slices hold is any words.

/// What stands in an answer slice before a call.
pub const LENT: u32 = 0xA5A5_A5A5;

#[derive(Default)]
pub struct Lent {
    pub out: Vec<u32>,
    pub lines: Vec<u32>,
    pub room: Vec<u32>,
    lendings: u32,
}

/// Whether all words are 0, a block at a time.
fn cleared(words: &[u32]) -> bool {
    words.chunks(4096).all(|block| block.iter().fold(0, |sum, word| sum | word) == 0)
}

impl Lent {
    /// Slices of so many words: all words of the work slices are any in every
    /// sixteenth lending, else the first hundred.
    pub fn of(&mut self, out: usize, lines: usize, room: usize) {
        self.out.clear();
        self.out.resize(out, LENT);
        self.lines.resize(lines, 0);
        self.room.resize(room, 0);
        self.lendings = self.lendings.wrapping_add(1);
        for slice in [&mut self.lines, &mut self.room] {
            let dirty = match self.lendings % 16 {
                0 => slice.len(),
                _ => slice.len().min(100),
            };
            for (word, at) in slice[..dirty].iter_mut().zip(self.lendings..) {
                *word = at.wrapping_mul(0x9E37_79B1);
            }
        }
    }

    /// Whether out has these words in front and is as it was behind them, and
    /// the work words are 0.
    pub fn holds(&self, words: &[u32]) -> bool {
        let front = words.len().min(self.out.len());
        self.out[..front] == words[..front]
            && front == words.len()
            && self.out[front..].iter().all(|&word| word == LENT)
            && self.is_cleared()
    }

    pub fn is_cleared(&self) -> bool {
        cleared(&self.lines) && cleared(&self.room)
    }
}
