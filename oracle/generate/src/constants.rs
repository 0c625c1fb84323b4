//! Constants: of each kind, at and around the ends of each range, and
//! around the ties where an integer is rounded to a REAL or LREAL.

use crate::draft::{Draft, Form, Integer};
use files::layout::*;

/// Bits of an f64 worth having: zeros, ones, the least and greatest, the
/// infinities, and values that are no number.
pub const REALS: [u64; 14] = [
    0x0000_0000_0000_0000,
    0x8000_0000_0000_0000,
    0x3FF0_0000_0000_0000,
    0xBFF8_0000_0000_0000,
    0x0000_0000_0000_0001,
    0x000F_FFFF_FFFF_FFFF,
    0x0010_0000_0000_0000,
    0x7FEF_FFFF_FFFF_FFFF,
    0x7FF0_0000_0000_0000,
    0xFFF0_0000_0000_0000,
    0x7FF8_0000_0000_0000,
    0x7FF0_0000_0000_0001,
    0xFFFF_FFFF_FFFF_FFFF,
    0x4341_C379_37E0_8000,
];

impl Draft {
    /// The constant with these words.
    pub fn constant(&mut self, words: [u32; 5]) -> u32 {
        self.single(CONSTANTS, &words)
    }

    /// A constant of `kind` with `size`.
    fn sized(&mut self, kind: u32, negative: bool, size: u64, width: u32) -> u32 {
        let sign = u32::from(negative && size != 0);
        self.constant([kind, sign, size as u32, (size >> 32) as u32, width])
    }

    /// The integer constant `value`.
    pub fn integer(&mut self, value: Integer) -> u32 {
        self.sized(1, value < 0, value.unsigned_abs() as u64, 0)
    }

    pub fn boolean(&mut self, value: bool) -> u32 {
        self.constant([0, 0, u32::from(value), 0, 0])
    }

    pub fn bit_string(&mut self, value: u64) -> u32 {
        self.sized(2, false, value, 0)
    }

    pub fn real(&mut self, bits: u64) -> u32 {
        self.sized(3, false, bits, 0)
    }

    /// A duration (kind 4), time of day (5), date (6) or date and time (7).
    pub fn time(&mut self, kind: u32, value: Integer) -> u32 {
        let width = self.random.below(2);
        let value = value.clamp(-(u64::MAX as Integer), u64::MAX as Integer);
        let value = if kind == 4 { value } else { value.abs() };
        self.sized(kind, value < 0, value.unsigned_abs() as u64, width)
    }

    /// A string of `length` characters, taken from those there or new.
    pub fn string(&mut self, length: u32) -> u32 {
        let there = self.records.count(CHARACTERS);
        let room = self.has_room(CHARACTERS, length as usize);
        let first = if there >= length && (!room || length > 40 || self.random.percent(50)) {
            self.random.below(there - length + 1)
        } else {
            for _ in 0..length {
                let character = self.character();
                self.records.push(CHARACTERS, &[character]);
            }
            there
        };
        let width = self.random.below(2);
        self.constant([8, 0, first, length, width])
    }

    fn character(&mut self) -> u32 {
        match self.random.below(8) {
            0 => self
                .random
                .pick(&[0, 0xFF, 0x100, 0xFFFF, 0x1_0000, u32::MAX]),
            _ => self.random.between(0x41, 0x5A),
        }
    }

    /// The range of the integers that a shape holds.
    pub fn range(&self, shape: u32) -> Option<(Integer, Integer)> {
        match self.form(shape) {
            Form::Sized(1 | 5, bits) => Some((-(1 << (bits - 1)), (1 << (bits - 1)) - 1)),
            Form::Sized(_, bits) => Some((0, (1 << bits) - 1)),
            Form::Subrange {
                least, greatest, ..
            } => Some((*least, *greatest)),
            _ => None,
        }
    }

    /// A value that the range holds: an end, next to an end, or between.
    fn inside(&mut self, (least, greatest): (Integer, Integer)) -> Integer {
        if least > greatest {
            return least;
        }
        let value = match self.random.below(6) {
            0 => least,
            1 => greatest,
            2 => least + 1,
            3 => greatest - 1,
            4 => Integer::from(self.random.below(9)),
            _ => self.random.word() as Integer % (greatest - least + 1) + least,
        };
        value.clamp(least, greatest)
    }

    /// A value next to the range, or far from it.
    fn outside(&mut self, (least, greatest): (Integer, Integer)) -> Integer {
        let value = match self.random.below(6) {
            0 | 1 => least - 1,
            2 | 3 => greatest + 1,
            4 => greatest + (1 << 32),
            _ => -(u64::MAX as Integer),
        };
        value.clamp(-(u64::MAX as Integer), u64::MAX as Integer)
    }

    /// A value in `range`, or next to it where the choice is odd.
    pub fn near(&mut self, range: (Integer, Integer)) -> Integer {
        if self.odd() {
            self.outside(range)
        } else {
            self.inside(range)
        }
    }

    /// An integer on or next to a tie of rounding to `bits` bits.
    pub fn near_tie(&mut self, bits: u32) -> Integer {
        let dropped = self.random.between(1, 64 - bits);
        let kept = match self.random.below(4) {
            0 => (1u64 << bits) - 1,
            1 => 1 << (bits - 1),
            2 => (1 << (bits - 1)) + 1,
            _ => self.random.word() >> (64 - bits) | 1 << (bits - 1),
        };
        let half = 1u64 << (dropped - 1);
        let value = ((kept << dropped) + half) as Integer;
        let value = value + self.random.pick(&[-1, 0, 0, 1]);
        let value = value.min(u64::MAX as Integer);
        if self.random.percent(30) {
            -value
        } else {
            value
        }
    }

    /// An integer for a REAL or LREAL.
    fn real_integer(&mut self) -> Integer {
        match self.random.below(6) {
            0 | 1 => self.near_tie(24),
            2 | 3 => self.near_tie(53),
            4 => Integer::from(self.random.below(1 << 25)) - (1 << 24),
            _ => self
                .random
                .pick(&[0, 1, -1, u64::MAX as Integer, -(1 << 63)]),
        }
    }

    /// The bits of a real.
    pub fn real_bits(&mut self) -> u64 {
        match self.random.below(4) {
            0 => self.random.word(),
            _ => self.random.pick(&REALS),
        }
    }

    /// A constant that a place of the shape takes, in all but the odd
    /// cases.
    pub fn constant_for(&mut self, shape: u32) -> u32 {
        if self.odd() && self.random.percent(40) {
            return self.any_constant();
        }
        match self.form(shape).clone() {
            Form::Bool => self.constant_for_bool(),
            Form::Sized(3, _) => match self.random.percent(60) {
                true => {
                    let value = self.real_integer();
                    self.integer(value)
                }
                false => {
                    let bits = self.real_bits();
                    self.real(bits)
                }
            },
            Form::Sized(1 | 2 | 4, _) | Form::Subrange { .. } => {
                let range = self.range(shape).expect("an integer shape");
                let value = self.near(range);
                match value >= 0 && self.random.percent(20) {
                    true => self.bit_string(value as u64),
                    false => self.integer(value),
                }
            }
            Form::Sized(kind, _) => {
                let range = self.range(shape).expect("a time shape");
                let value = self.near(range);
                // Shapes: 5 Time, 6 Date, 7 TimeOfDay, 8 DateAndTime.
                let kind = [4, 6, 5, 7][kind as usize - 5];
                self.time(kind, value)
            }
            Form::Text(length, _) => {
                let length = self.string_length(length);
                self.string(length)
            }
            _ => self.any_constant(),
        }
    }

    fn constant_for_bool(&mut self) -> u32 {
        if self.odd() {
            let value = self.random.pick(&[2, -1, 1 << 32, 1 << 63]);
            return self.integer(value);
        }
        let value = self.random.percent(50);
        match self.random.percent(60) {
            true => self.boolean(value),
            false => self.integer(Integer::from(value)),
        }
    }

    /// A number of characters below, at or above a string's length, kept
    /// short where the string is long.
    fn string_length(&mut self, length: u32) -> u32 {
        let most = match length {
            0 => self.default_length(),
            _ => length - 1,
        };
        if most > 8 {
            return self.random.below(4);
        }
        (most + self.random.below(3)).saturating_sub(1)
    }

    /// A constant of any kind.
    pub fn any_constant(&mut self) -> u32 {
        match self.random.below(9) {
            0 => {
                let value = self.random.percent(50);
                self.boolean(value)
            }
            1 => {
                let value = self.any_integer();
                self.integer(value)
            }
            2 => {
                let value = self.any_integer().unsigned_abs() as u64;
                self.bit_string(value)
            }
            3 => {
                let bits = self.real_bits();
                self.real(bits)
            }
            4..=7 => {
                let kind = self.random.between(4, 7);
                let value = self.any_integer();
                self.time(kind, value)
            }
            _ => {
                let length = self.random.below(4);
                self.string(length)
            }
        }
    }

    /// An integer, mostly near a power of two.
    pub fn any_integer(&mut self) -> Integer {
        let value = match self.random.below(3) {
            0 => Integer::from(self.random.below(4)),
            _ => (1 << self.random.below(65)) + Integer::from(self.random.below(3)) - 1,
        };
        let value = value.min(u64::MAX as Integer);
        if self.random.percent(30) {
            -value
        } else {
            value
        }
    }
}
