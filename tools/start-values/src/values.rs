//! Leaf nodes as Structured Text writes their values (IEC 61131-3, 6.3).

use crate::names::Names;
use crate::times;

/// Name, kind, sign, low, high, width; a string's last word is its width plus
/// 2 × the characters cut.
pub type Node = [u32; 6];

/// What a node's kind is called; none for arrays and structures.
pub fn kind(node: &Node) -> Option<&'static str> {
    let kinds = [
        "boolean",
        "integer",
        "bit string",
        "real",
        "duration",
        "time of day",
        "date",
        "date and time",
        "string",
        "enumerated",
        "null",
        "reference",
        "expression",
    ];
    kinds.get(node[1] as usize).copied()
}

/// The value of a leaf; a string's run is one of `characters`.
pub fn value(characters: &[u32], names: &Names, node: &Node) -> Result<String, String> {
    let [_, kind, sign, low, high, last] = *node;
    let size = u64::from(high) << 32 | u64::from(low);
    let signed = if sign == 1 { -i128::from(size) } else { i128::from(size) };
    let is_long = last % 2 == 1;
    Ok(match kind {
        0 => ["FALSE", "TRUE"][usize::from(low == 1)].to_string(),
        1 => signed.to_string(),
        2 => format!("16#{size:X}"),
        3 => real(f64::from_bits(size)),
        4 => times::duration(signed, is_long),
        5 => times::time_of_day(size, is_long),
        6 => times::date(size, is_long),
        7 => times::date_and_time(size, is_long),
        8 => string(&characters[low as usize..][..high as usize], is_long) + &cut(last / 2),
        9 => enumerated(names, low, high)?,
        10 => "NULL".to_string(),
        11 => format!("reference in expression {low}"),
        _ => format!("expression {low}"),
    })
}

/// A real with a point, as a real literal has one.
fn real(value: f64) -> String {
    if !value.is_finite() {
        return value.to_string();
    }
    let text = format!("{value:?}");
    match text.split_once('e') {
        None => text,
        Some((digits, exponent)) if digits.contains('.') => format!("{digits}E{exponent}"),
        Some((digits, exponent)) => format!("{digits}.0E{exponent}"),
    }
}

fn enumerated(names: &Names, value: u32, qualifier: u32) -> Result<String, String> {
    let value = names.name(value)?;
    match qualifier {
        0 => Ok(value),
        qualifier => Ok(format!("{}#{value}", names.name(qualifier)?)),
    }
}

/// A string in single quotes, a wide one in double quotes. A dollar stands
/// before a dollar, the quote and the number of what cannot be printed.
fn string(characters: &[u32], is_wide: bool) -> String {
    let quote = if is_wide { '"' } else { '\'' };
    let mut text = String::from(quote);
    for &number in characters {
        match char::from_u32(number) {
            Some(character) if character == quote || character == '$' => text.extend(['$', character]),
            Some(character) if is_printed(character, is_wide) => text.push(character),
            _ if is_wide => text += &format!("${number:04X}"),
            _ => text += &format!("${number:02X}"),
        }
    }
    text.push(quote);
    text
}

/// How many characters were cut from a string's literal, behind the string.
fn cut(count: u32) -> String {
    match count {
        0 => String::new(),
        count => format!(" ({count} cut)"),
    }
}

/// Whether a character stands for itself: in a narrow string those of ASCII.
fn is_printed(character: char, is_wide: bool) -> bool {
    match is_wide {
        true => !character.is_control() && !character.is_whitespace() || character == ' ',
        false => (' '..='~').contains(&character),
    }
}

#[cfg(test)]
mod tests;
