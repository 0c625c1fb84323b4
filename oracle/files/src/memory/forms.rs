//! How a leaf of a shape is stored.

use super::places::{integer, Shape};
use crate::layout::*;

/// An integer, a subrange, a time or a date.
#[derive(Clone, Debug, PartialEq, Eq)]
pub struct Number {
    /// The kinds of constants that conversion keeps here; it is read as the first.
    pub kinds: &'static [u32],
    pub bytes: usize,
    pub is_signed: bool,
    /// All bounds together: a subrange's, those of its base, and so on.
    pub least: i128,
    pub greatest: i128,
    /// The width of its built-in default.
    pub width: u32,
}

#[derive(Clone, Debug, PartialEq, Eq)]
pub enum Form {
    Bool,
    Number(Number),
    /// Four bytes.
    Real,
    /// Eight bytes.
    LongReal,
    /// Greatest length and width.
    Text(u16, u32),
    /// The names of the members.
    Enumeration(Vec<u32>),
    Reference,
    /// No leaf but a null stands here.
    Nothing,
}

/// A number of so many bits, at all its values.
fn number(kinds: &'static [u32], bits: u32, is_signed: bool, width: u32) -> Form {
    let (least, greatest) = match is_signed {
        true => (-(1i128 << (bits - 1)), (1i128 << (bits - 1)) - 1),
        false => (0, (1i128 << bits) - 1),
    };
    Form::Number(Number {
        kinds,
        bytes: bits as usize / 8,
        is_signed,
        least,
        greatest,
        width,
    })
}

/// A subrange is stored as its base is, within the bounds of both.
fn subrange(file: &File, shape: &Shape) -> Form {
    let base: Shape = file.record(SHAPES, shape[1] as usize).try_into().expect("a shape has five words");
    let is_integer = matches!(base[0], 1 | 2 | 4 | 13);
    match form(file, &base) {
        Form::Number(number) if is_integer => Form::Number(Number {
            least: number.least.max(integer(file, shape[2])),
            greatest: number.greatest.min(integer(file, shape[3])),
            ..number
        }),
        _ => Form::Nothing,
    }
}

/// A string's greatest length is stored in two bytes.
fn text(file: &File, shape: &Shape) -> Form {
    let most = match shape[1] {
        0 => file.record(SETTINGS, 0)[0],
        length => length - 1,
    };
    u16::try_from(most).map_or(Form::Nothing, |most| Form::Text(most, shape[2]))
}

/// How a leaf of a shape is stored.
pub fn form(file: &File, shape: &Shape) -> Form {
    let bits = shape[1];
    let is_long = u32::from(bits == 64);
    match shape[0] {
        0 => Form::Bool,
        1 => number(&[1, 2], bits, true, 0),
        2 | 4 => number(&[1, 2], bits, false, 0),
        3 if bits == 64 => Form::LongReal,
        3 => Form::Real,
        5 => number(&[4], bits, true, is_long),
        6 => number(&[6], bits, false, is_long),
        7 => number(&[5], bits, false, is_long),
        8 => number(&[7], bits, false, is_long),
        9 => text(file, shape),
        10 => {
            let members = shape[1]..shape[1] + shape[2];
            Form::Enumeration(members.map(|member| file.record(MEMBERS, member as usize)[0]).collect())
        }
        13 => subrange(file, shape),
        16 => Form::Reference,
        _ => Form::Nothing,
    }
}
