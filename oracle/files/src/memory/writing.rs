//! Parts as bytes.

use super::forms::{Form, Number};
use super::parts::{Misfit, Part};
use super::places::signed;
use super::{is_head, Node, ENUMERATED, NULL, STRING};
use crate::layout::{File, CHARACTERS};

// Kinds of constants.
const BOOLEAN: u32 = 0;
const REAL: u32 = 3;

/// The bytes of a null.
const NULL_BYTES: [u8; 4] = [0; 4];

/// Whether the place of a part holds its node; heads are held where the walk
/// goes through them.
pub fn held(part: &Part) -> Result<(), Misfit> {
    let node = &part.node;
    match node[1] {
        _ if is_head(part) => Ok(()),
        NULL => Ok(()),
        ENUMERATED => enumerated_held(&part.form, node[3]),
        kind if kind > NULL => Err(Misfit::Expression),
        _ => constant_held(&part.form, node),
    }
}

fn enumerated_held(form: &Form, name: u32) -> Result<(), Misfit> {
    match form {
        Form::Enumeration(members) if members.contains(&name) => Ok(()),
        _ => Err(Misfit::Member),
    }
}

/// Whether conversion to the place would return a constant unchanged, and its
/// value is stored there.
fn constant_held(form: &Form, node: &Node) -> Result<(), Misfit> {
    match (form, node[1]) {
        (Form::Bool, BOOLEAN) | (Form::LongReal, REAL) => Ok(()),
        (Form::Real, REAL) => match real(node).is_nan() {
            true => Err(Misfit::NotANumber),
            false => Ok(()),
        },
        (Form::Number(number), kind) if number.kinds.contains(&kind) => {
            let range = number.least..=number.greatest;
            range.contains(&value(node)).then_some(()).ok_or(Misfit::Bounds)
        }
        (Form::Text(most, width), STRING) => {
            // What was cut besides is disregarded (document 02, Q-2).
            let is_held = node[4] <= u32::from(*most) && node[5] % 2 == *width;
            is_held.then_some(()).ok_or(Misfit::Text)
        }
        (Form::Nothing, _) => Err(Misfit::Nothing),
        _ => Err(Misfit::Converted),
    }
}

fn value(node: &Node) -> i128 {
    signed(node[2], node[3], node[4])
}

fn real(node: &Node) -> f64 {
    f64::from_bits(u64::from(node[4]) << 32 | u64::from(node[3]))
}

/// The characters of a string's node.
fn characters(file: &File, node: &Node) -> Vec<u32> {
    let places = (0..node[4]).map(|place| (node[3] + place) as usize);
    places.map(|place| file.record(CHARACTERS, place)[0]).collect()
}

/// Whether a part that is held has a character that its width does not hold.
pub fn is_too_wide(file: &File, part: &Part) -> bool {
    let most = match part.form {
        Form::Text(_, 0) => 0xFF,
        Form::Text(..) => 0xFFFF,
        _ => return false,
    };
    part.node[1] == STRING && characters(file, &part.node).iter().any(|character| *character > most)
}

/// The bytes of a part that is held.
pub fn bytes(file: &File, part: &Part) -> Vec<u8> {
    let node = &part.node;
    if is_head(part) {
        return Vec::new();
    }
    if node[1] == NULL {
        return NULL_BYTES.to_vec();
    }
    match &part.form {
        Form::Bool => vec![node[3] as u8],
        Form::Number(number) => number_bytes(number, value(node)),
        Form::Real => (real(node) as f32).to_le_bytes().to_vec(),
        Form::LongReal => real(node).to_bits().to_le_bytes().to_vec(),
        Form::Text(most, width) => text_bytes(*most, *width, &characters(file, node)),
        Form::Enumeration(members) => {
            let first = members.iter().position(|member| *member == node[3]);
            (first.expect("it is held") as u16).to_le_bytes().to_vec()
        }
        Form::Reference | Form::Nothing => unreachable!("only a null is held here"),
    }
}

fn number_bytes(number: &Number, value: i128) -> Vec<u8> {
    // Two's complement: the low bytes are the same in every width.
    value.to_le_bytes()[..number.bytes].to_vec()
}

/// Greatest length, length, characters, and zeros up to the greatest length.
fn text_bytes(most: u16, width: u32, characters: &[u32]) -> Vec<u8> {
    let each = if width == 0 { 1 } else { 2 };
    let mut bytes = most.to_le_bytes().to_vec();
    bytes.extend((characters.len() as u16).to_le_bytes());
    for character in characters {
        bytes.extend(&character.to_le_bytes()[..each]);
    }
    bytes.resize(4 + each * usize::from(most), 0);
    bytes
}
