//! The declarations of a file as the syntax that the resolver reads. The file
//! must meet none of refusals 1 to 4.
//!
//! Entries and expressions that several records point at are read again for
//! each, since syntax is a tree.

mod constants;
mod declarations;
mod entries;
mod initializers;

use files::layout::{File, INLINE};
use ironplc_dsl::common::{SpecificationKind, TypeName};

/// Reads the records of one file.
#[derive(Clone, Copy)]
pub struct Syntax<'a> {
    file: File<'a>,
}

impl<'a> Syntax<'a> {
    pub fn of(file: File<'a>) -> Self {
        Syntax { file }
    }
}

/// The record that `link` leads to; `None` for link 0.
fn linked(link: u32) -> Option<u32> {
    link.checked_sub(1)
}

/// The type that a named type's `word` stands for: `inline` where it says so.
fn specification<T>(word: u32, inline: T) -> SpecificationKind<T> {
    match word {
        INLINE => SpecificationKind::Inline(inline),
        link => SpecificationKind::Named(TypeName::of(link)),
    }
}
