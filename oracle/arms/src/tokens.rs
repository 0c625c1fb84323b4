//! The tokens of Rust source, as far as brackets and arrows need them.

#[derive(Debug, Clone, Copy, PartialEq)]
pub enum Kind {
    Word,
    Open(char),
    Close(char),
    Arrow,
    Comma,
    /// Any other mark, and a string, a character or a lifetime.
    Other,
}

#[derive(Debug, Clone, Copy, PartialEq)]
pub struct Token {
    pub kind: Kind,
    pub start: usize,
    pub end: usize,
}

impl Token {
    pub fn text<'a>(&self, source: &'a str) -> &'a str {
        &source[self.start..self.end]
    }
}

/// The tokens of `source`, comments and blanks left out.
pub fn tokens(source: &str) -> Vec<Token> {
    let mut tokens = Vec::new();
    let mut start = 0;
    while let Some(first) = source[start..].chars().next() {
        let rest = &source[start..];
        let (length, kind) = match first {
            _ if first.is_whitespace() => (first.len_utf8(), None),
            '/' if rest.starts_with("//") => (rest.find('\n').unwrap_or(rest.len()), None),
            '/' if rest.starts_with("/*") => (block_comment(rest), None),
            '"' => (string(rest), Some(Kind::Other)),
            'r' if is_raw_string(rest) => (raw_string(rest), Some(Kind::Other)),
            '\'' => (character_or_lifetime(rest), Some(Kind::Other)),
            '(' | '[' | '{' => (1, Some(Kind::Open(first))),
            ')' | ']' | '}' => (1, Some(Kind::Close(first))),
            ',' => (1, Some(Kind::Comma)),
            '=' if rest.starts_with("=>") => (2, Some(Kind::Arrow)),
            _ if is_word(first) => (word(rest), Some(Kind::Word)),
            _ => (first.len_utf8(), Some(Kind::Other)),
        };
        let end = start + length;
        tokens.extend(kind.map(|kind| Token { kind, start, end }));
        start = end;
    }
    tokens
}

fn is_word(character: char) -> bool {
    character.is_alphanumeric() || character == '_'
}

fn word(rest: &str) -> usize {
    rest.find(|character| !is_word(character))
        .unwrap_or(rest.len())
}

/// The length of a block comment, which may hold others.
fn block_comment(rest: &str) -> usize {
    let mut depth = 0;
    let mut at = 0;
    while at < rest.len() {
        if rest[at..].starts_with("/*") {
            depth += 1;
            at += 2;
        } else if rest[at..].starts_with("*/") {
            depth -= 1;
            at += 2;
        } else {
            at += rest[at..].chars().next().map_or(1, char::len_utf8);
        }
        if depth == 0 {
            break;
        }
    }
    at
}

/// The length of a string with its quotes.
fn string(rest: &str) -> usize {
    quoted(rest, '"')
}

/// The length of a text between two of `quote`, the first of which it starts
/// with.
fn quoted(rest: &str, quote: char) -> usize {
    let mut escaped = false;
    for (at, character) in rest.char_indices().skip(1) {
        match character {
            _ if escaped => escaped = false,
            '\\' => escaped = true,
            _ if character == quote => return at + 1,
            _ => {}
        }
    }
    rest.len()
}

fn is_raw_string(rest: &str) -> bool {
    rest[1..].trim_start_matches('#').starts_with('"')
}

fn raw_string(rest: &str) -> usize {
    let opening = rest.find('"').unwrap_or(rest.len()) + 1;
    let closing = format!("\"{}", "#".repeat(opening - 2));
    match rest[opening..].find(&closing) {
        Some(at) => opening + at + closing.len(),
        None => rest.len(),
    }
}

/// The length of a character with its quotes, or of a lifetime.
fn character_or_lifetime(rest: &str) -> usize {
    let mut characters = rest.chars().skip(1);
    let (first, second) = (characters.next(), characters.next());
    match (first, second) {
        (Some('\\'), _) | (Some(_), Some('\'')) => quoted(rest, '\''),
        _ => 1 + word(&rest[1..]),
    }
}
