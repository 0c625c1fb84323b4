//! Bytes as nodes, by the parts of a tree.

use super::forms::{Form, Number};
use super::parts::Part;
use super::{is_head, Node, ENUMERATED, NULL, STRING};

/// Nodes and characters read so far, and the bytes that are left.
struct Reader<'b> {
    bytes: &'b [u8],
    nodes: Vec<u32>,
    characters: Vec<u32>,
}

/// The words of the nodes, and the characters; none where the bytes are not
/// exactly those of some tree of these parts.
pub fn nodes(parts: &[Part], bytes: &[u8]) -> Option<(Vec<u32>, Vec<u32>)> {
    let mut reader = Reader {
        bytes,
        nodes: Vec::new(),
        characters: Vec::new(),
    };
    for part in parts {
        let node = reader.part(part)?;
        reader.nodes.extend(node);
    }
    reader.bytes.is_empty().then_some((reader.nodes, reader.characters))
}

/// A node of a sign and a size.
fn sized(kind: u32, value: i128, width: u32) -> Node {
    let size = value.unsigned_abs() as u64;
    [0, kind, u32::from(value < 0), size as u32, (size >> 32) as u32, width]
}

fn real_node(value: f64) -> Node {
    sized(3, i128::from(value.to_bits()), 0)
}

impl<'b> Reader<'b> {
    fn take(&mut self, count: usize) -> Option<&'b [u8]> {
        let (front, rest) = self.bytes.split_at_checked(count)?;
        self.bytes = rest;
        Some(front)
    }

    /// A number of two bytes.
    fn short(&mut self) -> Option<u16> {
        Some(u16::from_le_bytes(self.take(2)?.try_into().expect("two bytes")))
    }

    fn part(&mut self, part: &Part) -> Option<Node> {
        let [_, kind, _, count, _, _] = part.node;
        if is_head(part) {
            return Some([0, kind, 0, count, 0, 0]);
        }
        if kind == NULL {
            return self.null();
        }
        match &part.form {
            Form::Bool => match self.take(1)?[0] {
                truth @ (0 | 1) => Some([0, 0, 0, u32::from(truth), 0, 0]),
                _ => None,
            },
            Form::Number(number) => self.number(number),
            Form::Real => {
                let value = f32::from_le_bytes(self.take(4)?.try_into().expect("four bytes"));
                (!value.is_nan()).then(|| real_node(f64::from(value)))
            }
            Form::LongReal => {
                let bits = u64::from_le_bytes(self.take(8)?.try_into().expect("eight bytes"));
                Some(sized(3, i128::from(bits), 0))
            }
            Form::Text(most, width) => self.text(*most, *width),
            Form::Enumeration(members) => self.member(members),
            Form::Reference => self.null(),
            Form::Nothing => None,
        }
    }

    fn null(&mut self) -> Option<Node> {
        let is_zero = self.take(4)?.iter().all(|byte| *byte == 0);
        is_zero.then_some([0, NULL, 0, 0, 0, 0])
    }

    fn number(&mut self, number: &Number) -> Option<Node> {
        let bytes = self.take(number.bytes)?;
        let mut whole = [0; 16];
        // The sign's bit fills the bytes above.
        if number.is_signed && bytes[number.bytes - 1] >= 0x80 {
            whole = [0xFF; 16];
        }
        whole[..number.bytes].copy_from_slice(bytes);
        let value = i128::from_le_bytes(whole);
        let range = number.least..=number.greatest;
        range.contains(&value).then(|| sized(number.kinds[0], value, number.width))
    }

    fn text(&mut self, most: u16, width: u32) -> Option<Node> {
        if self.short()? != most {
            return None;
        }
        let length = self.short()?;
        if length > most {
            return None;
        }
        let first = match length {
            0 => 0,
            _ => self.characters.len() as u32,
        };
        for place in 0..most {
            let character = match width {
                0 => u16::from(self.take(1)?[0]),
                _ => self.short()?,
            };
            match place < length {
                true => self.characters.push(u32::from(character)),
                false if character != 0 => return None,
                false => {}
            }
        }
        Some([0, STRING, 0, first, u32::from(length), width])
    }

    /// A member is written as the first place with its name.
    fn member(&mut self, members: &[u32]) -> Option<Node> {
        let place = usize::from(self.short()?);
        let name = *members.get(place)?;
        let is_first = !members[..place].contains(&name);
        is_first.then_some([0, ENUMERATED, 0, name, 0, 0])
    }
}
