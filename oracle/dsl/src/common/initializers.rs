//! Initializers and what they list.

use crate::common::*;
use crate::core::{Id, SourceSpan};
use crate::textual::{Expr, Variable};

/// An initializer, its kinds in the order of their numbers in a file. Those
/// whose contents no answer depends on hold only the name of their type.
#[derive(Debug, Clone)]
pub enum InitialValueAssignmentKind {
    None(TypeName),
    Interface(TypeName),
    Subrange(SubrangeInitialValueAssignment),
    Simple(SimpleInitializer),
    String(StringInitializer),
    EnumeratedValues(EnumeratedValuesInitializer),
    EnumeratedType(EnumeratedInitialValueAssignment),
    FunctionBlock(FunctionBlockInitialValueAssignment),
    Structure(StructureInitializationDeclaration),
    Array(ArrayInitialValueAssignment),
    Reference(ReferenceInitializer),
    LateResolvedType(LateResolvedInitializer),
    FunctionBlockCall(TypeName),
    SimpleExpr(TypeName),
    StringExpr(TypeName),
}

impl InitialValueAssignmentKind {
    /// The type that the initializer names, as the file states it.
    pub fn type_reference(&self) -> TypeReference {
        match self {
            Self::Reference(_)
            | Self::Subrange(SubrangeInitialValueAssignment {
                spec: SpecificationKind::Inline(_),
                ..
            })
            | Self::Array(ArrayInitialValueAssignment {
                spec: SpecificationKind::Inline(_),
                ..
            }) => TypeReference::Unnamed,
            _ => TypeReference::Named(self.held_name().clone()),
        }
    }

    /// Whether `complete` made this initializer, rather than the reader of a
    /// file: the name in it is a copy then.
    pub fn is_completed(&self) -> bool {
        self.held_name().id.is_copy()
    }

    /// The name that an initializer of this kind holds, of whatever use.
    fn held_name(&self) -> &TypeName {
        match self {
            Self::None(name)
            | Self::Interface(name)
            | Self::FunctionBlockCall(name)
            | Self::SimpleExpr(name)
            | Self::StringExpr(name) => name,
            Self::Subrange(subrange) => match &subrange.spec {
                SpecificationKind::Named(name) => name,
                SpecificationKind::Inline(inline) => &inline.0,
            },
            Self::Simple(simple) => &simple.type_name,
            Self::String(string) => &string.keyword_span.0,
            Self::EnumeratedValues(values) => &values.values.0,
            Self::EnumeratedType(enumerated) => &enumerated.type_name,
            Self::FunctionBlock(block) => &block.type_name,
            Self::Structure(structure) => &structure.type_name,
            Self::Array(array) => match &array.spec {
                SpecificationKind::Named(name) => name,
                SpecificationKind::Inline(inline) => &inline.type_name.0,
            },
            Self::Reference(reference) => match &reference.target {
                ReferenceTarget::Named(name) => name,
            },
            Self::LateResolvedType(late) => &late.type_name,
        }
    }
}

#[derive(Debug, Clone)]
pub struct SubrangeInitialValueAssignment {
    pub spec: SpecificationKind<SubrangeSpecification>,
    pub initial_value: Option<SignedInteger>,
}

impl SubrangeInitialValueAssignment {
    pub fn bare(spec: SpecificationKind<SubrangeSpecification>) -> Self {
        SubrangeInitialValueAssignment {
            spec,
            initial_value: None,
        }
    }
}

#[derive(Debug, Clone)]
pub struct SimpleInitializer {
    pub type_name: TypeName,
    pub initial_value: Option<ConstantKind>,
}

/// Where the keyword `STRING` stands. A string initializer has no field for
/// the name of its type, so the name is kept here.
#[derive(Debug, Clone)]
pub struct KeywordSpan(pub TypeName);

#[derive(Debug, Clone)]
pub struct StringInitializer {
    pub length: Option<IntegerRef>,
    pub width: StringType,
    pub initial_value: Option<CharacterStringLiteral>,
    pub keyword_span: KeywordSpan,
}

impl StringInitializer {
    pub fn type_name(&self) -> TypeName {
        self.keyword_span.0.clone()
    }
}

#[derive(Debug, Clone)]
pub struct StringSpecification {
    pub length: Option<IntegerRef>,
    pub width: StringType,
    pub keyword_span: KeywordSpan,
}

/// The values of an enumeration spelled in place. A file has its type
/// instead, by name.
#[derive(Debug, Clone)]
pub struct InlineValues(pub TypeName);

#[derive(Debug, Clone)]
pub struct EnumeratedValuesInitializer {
    pub values: InlineValues,
    pub initial_value: Option<EnumeratedValue>,
}

#[derive(Debug, Clone)]
pub struct EnumeratedInitialValueAssignment {
    pub type_name: TypeName,
    pub initial_value: Option<EnumeratedValue>,
}

#[derive(Debug, Clone)]
pub struct FunctionBlockInitialValueAssignment {
    pub type_name: TypeName,
    pub init: Vec<StructureElementInit>,
}

#[derive(Debug, Clone)]
pub struct StructureInitializationDeclaration {
    pub type_name: TypeName,
    pub elements_init: Vec<StructureElementInit>,
}

#[derive(Debug, Clone)]
pub struct ArrayInitialValueAssignment {
    pub spec: SpecificationKind<ArraySubranges>,
    pub initial_values: Vec<ArrayInitialElementKind>,
}

#[derive(Debug, Clone)]
pub struct ReferenceInitializer {
    pub target: ReferenceTarget,
    pub initial_value: Option<ReferenceInitialValue>,
    pub syntax: RefSyntax,
}

#[derive(Debug, Clone)]
pub enum ReferenceInitialValue {
    Null(SourceSpan),
    Ref(Variable),
}

#[derive(Debug, Clone)]
pub struct LateResolvedInitializer {
    pub type_name: TypeName,
    pub initial_value: Option<ConstantKind>,
}

/// A member of a structure initializer.
#[derive(Debug, Clone)]
pub struct StructureElementInit {
    pub name: Id,
    pub init: StructInitialValueAssignmentKind,
}

#[derive(Debug, Clone)]
pub enum StructInitialValueAssignmentKind {
    Constant(ConstantKind),
    EnumeratedValue(EnumeratedValue),
    Array(Vec<ArrayInitialElementKind>),
    Structure(Vec<StructureElementInit>),
    Expression(Expr),
    LateBound(LateBoundValue),
}

/// A member's value that was not resolved, whose name files leave out.
#[derive(Debug, Clone)]
pub struct LateBoundValue;

/// An entry of an array initializer.
#[derive(Debug, Clone)]
pub enum ArrayInitialElementKind {
    Constant(ConstantKind),
    EnumValue(EnumeratedValue),
    Structure(Vec<StructureElementInit>),
    Expression(Expr),
    Repeated(Repeated),
}

#[derive(Debug, Clone)]
pub struct Repeated {
    pub size: Integer,
    pub init: Box<Option<ArrayInitialElementKind>>,
}
