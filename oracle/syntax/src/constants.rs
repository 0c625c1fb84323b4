//! Constants: kind, sign, low, high, width.

use files::layout::CONSTANTS;
use ironplc_dsl::common::*;
use ironplc_dsl::core::SourceSpan;
use ironplc_dsl::time::*;

use crate::Syntax;

impl Syntax<'_> {
    /// Constant `number`.
    pub fn constant(&self, number: u32) -> ConstantKind {
        let words = self.file.record(CONSTANTS, number as usize);
        let size = u64::from(words[3]) << 32 | u64::from(words[2]);
        let width = temporal_width(words[4]);
        let span = SourceSpan::synthesized();
        match words[0] {
            0 => ConstantKind::Boolean(BooleanLiteral {
                value: match size {
                    0 => Boolean::False,
                    _ => Boolean::True,
                },
                span,
            }),
            1 => ConstantKind::IntegerLiteral(IntegerLiteral {
                value: self.signed_integer(number),
                data_type: None,
            }),
            2 => ConstantKind::BitStringLiteral(BitStringLiteral {
                value: integer(size),
            }),
            3 => ConstantKind::RealLiteral(RealLiteral {
                value: f64::from_bits(size),
                data_type: None,
                span,
            }),
            4 => ConstantKind::Duration(DurationLiteral {
                interval: Interval {
                    milliseconds: signed(words[1], size),
                },
                width,
            }),
            5 => ConstantKind::TimeOfDay(TimeOfDayLiteral {
                milliseconds: size,
                width,
            }),
            6 => ConstantKind::Date(DateLiteral {
                seconds: size,
                width,
            }),
            7 => ConstantKind::DateAndTime(DateAndTimeLiteral {
                seconds: size,
                width,
            }),
            8 => ConstantKind::CharacterString(self.string(number)),
            kind => panic!("no constant is of kind {kind}"),
        }
    }

    /// Constant `number`, an integer, as a subrange's value.
    pub fn signed_integer(&self, number: u32) -> SignedInteger {
        let words = self.file.record(CONSTANTS, number as usize);
        SignedInteger {
            value: integer(u64::from(words[3]) << 32 | u64::from(words[2])),
            is_neg: words[1] == 1,
        }
    }

    /// Constant `number`, an integer.
    pub fn integer(&self, number: u32) -> i128 {
        let integer = self.signed_integer(number);
        i128::try_from(integer).expect("64 bits and a sign fit")
    }

    /// Constant `number`, a string.
    pub fn string(&self, number: u32) -> CharacterStringLiteral {
        let words = self.file.record(CONSTANTS, number as usize);
        let (first, count) = (words[2], words[3]);
        CharacterStringLiteral {
            value: (first..first + count).map(Character).collect(),
            width: string_width(words[4]),
            span: SourceSpan::synthesized(),
        }
    }
}

/// An integer of `size`.
pub fn integer(size: u64) -> Integer {
    Integer {
        span: SourceSpan::synthesized(),
        value: u128::from(size),
    }
}

fn signed(sign: u32, size: u64) -> i128 {
    match sign {
        0 => i128::from(size),
        _ => -i128::from(size),
    }
}

fn temporal_width(word: u32) -> TemporalWidth {
    match word {
        0 => TemporalWidth::Short,
        _ => TemporalWidth::Long,
    }
}

pub fn string_width(word: u32) -> StringType {
    match word {
        0 => StringType::String,
        _ => StringType::WString,
    }
}
