//! The identity of a type.

/// A type's number in the file.
#[derive(Debug, Clone, Copy, PartialEq, Eq, PartialOrd, Ord, Hash)]
pub struct TypeId(pub u32);

impl TypeId {
    /// The type that `link` leads to; `None` for link 0.
    pub fn of_link(link: u32) -> Option<Self> {
        link.checked_sub(1).map(TypeId)
    }
}
