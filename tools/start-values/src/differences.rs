//! The rows in which two files differ, side by side.

use crate::rows::Row;

pub const HEADING: [&str; 5] = ["path", "first kind", "first value", "second kind", "second value"];

/// What a row says of its path: kind and value, or the state without one.
fn said(row: Option<&Row>) -> [&str; 2] {
    match row {
        None => ["", "not there"],
        Some(row) if row.state == "value" => [&row.kind, &row.value],
        Some(row) => ["", row.state],
    }
}

/// Rows of one path, in the order of the first file; those that only the
/// second has behind them. A path that stands more than once is compared with
/// the same time that it stands in the other.
pub fn differences(first: &[Row], second: &[Row]) -> Vec<String> {
    let mut taken = vec![false; second.len()];
    let mut lines = Vec::new();
    let places: std::collections::HashMap<&str, Vec<usize>> =
        second.iter().enumerate().fold(Default::default(), |mut places, (at, row)| {
            places.entry(row.path.as_str()).or_insert_with(Vec::new).push(at);
            places
        });
    for row in first {
        let at = places.get(row.path.as_str()).and_then(|places| places.iter().find(|at| !taken[**at]));
        let other = at.map(|at| {
            taken[*at] = true;
            &second[*at]
        });
        push(&mut lines, &row.path, Some(row), other);
    }
    for (row, _) in second.iter().zip(taken).filter(|(_, taken)| !taken) {
        push(&mut lines, &row.path, None, Some(row));
    }
    lines
}

fn push(lines: &mut Vec<String>, path: &str, first: Option<&Row>, second: Option<&Row>) {
    let [one, other] = [said(first), said(second)];
    if one != other {
        lines.push([path, one[0], one[1], other[0], other[1]].join("\t"));
    }
}

#[cfg(test)]
mod tests;
