//! Names and spans.

/// Where something is written. Declaration files have no spans.
#[derive(Debug, Clone, PartialEq)]
pub struct SourceSpan;

impl SourceSpan {
    pub fn synthesized() -> Self {
        SourceSpan
    }
}

/// Something that is written somewhere.
pub trait Located {
    fn span(&self) -> SourceSpan;
}

/// A name: its number in the file.
///
/// A name knows whether it is a copy. `fold_var_decl` returns a declaration
/// that it leaves as it was given, and copies the names of an initializer that
/// it completes; this is how the two are told apart where they look alike (a
/// structure without fields).
#[derive(Debug)]
pub struct Id {
    pub number: u32,
    is_copy: bool,
}

impl Id {
    pub fn new(number: u32) -> Self {
        Id {
            number,
            is_copy: false,
        }
    }

    pub fn is_copy(&self) -> bool {
        self.is_copy
    }

    pub fn with_position(self, _span: SourceSpan) -> Self {
        self
    }
}

impl Clone for Id {
    fn clone(&self) -> Self {
        Id {
            number: self.number,
            is_copy: true,
        }
    }
}

impl PartialEq for Id {
    fn eq(&self, other: &Self) -> bool {
        self.number == other.number
    }
}
