//! How a type is named.

use crate::core::{Id, Located, SourceSpan};

/// The name of a type is the link that leads to it, and 0 is a name that no
/// type has. The qualifier of an enumerated value, which is not looked up, is
/// a name as the file has it.
#[derive(Debug, Clone, PartialEq)]
pub struct TypeName {
    pub id: Id,
}

impl TypeName {
    pub fn of(number: u32) -> Self {
        TypeName {
            id: Id::new(number),
        }
    }
}

impl Located for TypeName {
    fn span(&self) -> SourceSpan {
        SourceSpan::synthesized()
    }
}

/// A generic category of types; no declaration file has one.
#[derive(Debug, Clone, PartialEq)]
pub struct GenericTypeName;

/// The type that an initializer names.
#[derive(Debug)]
pub enum TypeReference {
    Named(TypeName),
    /// A type that is spelled in place, or none at all.
    Unnamed,
}

/// A type that is named or spelled in place.
#[derive(Debug, Clone)]
pub enum SpecificationKind<T> {
    Named(TypeName),
    Inline(T),
}

/// An array type spelled in place.
#[derive(Debug, Clone)]
pub struct ArraySubranges {
    pub type_name: ArrayElementType,
    /// Whether the elements are references to the type named; never so in a
    /// file, whose link leads to the element type itself.
    pub ref_to: Option<RefSyntax>,
}

#[derive(Debug, Clone)]
pub struct ArrayElementType(pub TypeName);

impl ArrayElementType {
    pub fn to_type_name(&self) -> TypeName {
        self.0.clone()
    }
}

/// A subrange spelled in place. The name is there to be a copy or not, as
/// `Id` says.
#[derive(Debug, Clone)]
pub struct SubrangeSpecification(pub TypeName);

/// How a reference type is spelled.
#[derive(Debug, Clone, Copy)]
pub enum RefSyntax {
    RefTo,
}

/// What a reference refers to. An initializer of a file does not say.
#[derive(Debug, Clone)]
pub enum ReferenceTarget {
    Named(TypeName),
}
