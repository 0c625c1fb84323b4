//! Finds the arms of each match in Rust source, and puts a call at the front
//! of each.
//!
//! This reads no more of the language than it must: comments, strings,
//! characters, lifetimes and brackets. It relies on what rustfmt leaves: the
//! body of an arm is a block or ends with a comma or with the match.

mod tokens;

use tokens::{tokens, Kind, Token};

/// An arm of a match.
#[derive(Debug, Clone, PartialEq)]
pub struct Arm {
    /// The line on which its pattern starts, from 1.
    pub line: usize,
    /// The function that the match stands in.
    pub function: String,
    /// The first line of its pattern.
    pub pattern: String,
    /// Where its body starts and ends in the source.
    body: (usize, usize),
    is_block: bool,
}

/// The arms of every match in `source`, in the order of their patterns.
pub fn find(source: &str) -> Vec<Arm> {
    let tokens = tokens(source);
    let mut arms = Vec::new();
    let mut function = "";
    for at in 0..tokens.len() {
        match tokens[at].text(source) {
            "fn" => function = tokens[at + 1].text(source),
            "match" => find_in_match(source, &tokens, at + 1, function, &mut arms),
            _ => {}
        }
    }
    arms.sort_by_key(|arm| arm.body.0);
    arms
}

/// `source` with `call` of each arm's place in `arms` at the front of the
/// arm's body.
pub fn with_calls(source: &str, arms: &[Arm], call: impl Fn(usize) -> String) -> String {
    let mut insertions = Vec::new();
    for (place, arm) in arms.iter().enumerate() {
        let (start, end) = arm.body;
        if arm.is_block {
            insertions.push((start + 1, format!(" {};", call(place))));
        } else {
            insertions.push((start, format!("{{ {}; ", call(place))));
            insertions.push((end, " }".to_string()));
        }
    }
    insertions.sort();
    let mut result = String::new();
    let mut copied = 0;
    for (at, text) in insertions {
        result.push_str(&source[copied..at]);
        result.push_str(&text);
        copied = at;
    }
    result.push_str(&source[copied..]);
    result
}

/// Adds the arms of the match whose scrutinee starts at token `scrutinee`.
/// Matches inside the arms are found on their own.
fn find_in_match(
    source: &str,
    tokens: &[Token],
    scrutinee: usize,
    function: &str,
    arms: &mut Vec<Arm>,
) {
    let open = skip_to(tokens, scrutinee, |kind| kind == Kind::Open('{'));
    let mut at = open + 1;
    while !matches!(tokens[at].kind, Kind::Close(_)) {
        let arrow = skip_to(tokens, at, |kind| kind == Kind::Arrow);
        let body = arrow + 1;
        let is_block = tokens[body].kind == Kind::Open('{');
        let past = match is_block {
            true => closing(tokens, body) + 1,
            false => skip_to(tokens, body, |kind| {
                matches!(kind, Kind::Comma | Kind::Close(_))
            }),
        };
        let pattern = source[tokens[at].start..tokens[arrow].start].lines().next();
        arms.push(Arm {
            line: source[..tokens[at].start].matches('\n').count() + 1,
            function: function.to_string(),
            pattern: pattern.unwrap_or_default().trim().to_string(),
            body: (tokens[body].start, tokens[past - 1].end),
            is_block,
        });
        at = past;
        if tokens[at].kind == Kind::Comma {
            at += 1;
        }
    }
}

/// The first token from `at` on that `wanted` takes, brackets skipped whole.
fn skip_to(tokens: &[Token], mut at: usize, wanted: impl Fn(Kind) -> bool) -> usize {
    while !wanted(tokens[at].kind) {
        at = match tokens[at].kind {
            Kind::Open(_) => closing(tokens, at) + 1,
            _ => at + 1,
        };
    }
    at
}

/// The bracket that closes the one at `open`.
fn closing(tokens: &[Token], open: usize) -> usize {
    let mut depth = 0;
    for (at, token) in tokens.iter().enumerate().skip(open) {
        match token.kind {
            Kind::Open(_) => depth += 1,
            Kind::Close(_) => depth -= 1,
            _ => {}
        }
        if depth == 0 {
            return at;
        }
    }
    panic!("a bracket is not closed");
}

#[cfg(test)]
mod tests;
