//! Diagnostics, which only `SemanticType::validate_bounds` makes. No start
//! value asks for it.

use ironplc_problems::Problem;

use crate::core::SourceSpan;

pub struct Diagnostic;

pub struct Label;

impl Diagnostic {
    pub fn problem(_problem: Problem, _primary: Label) -> Self {
        Diagnostic
    }
}

impl Label {
    pub fn span(_span: SourceSpan, _message: &str) -> Self {
        Label
    }
}
