//! Initializers: kind, named type, link to inline element type, value link,
//! run of entries, string length, width.

use files::layout::{INITIALIZERS, INLINE};
use ironplc_dsl::common::*;

use crate::constants::{integer, string_width};
use crate::{linked, specification, Syntax};

impl Syntax<'_> {
    /// Initializer `number`.
    pub fn initializer(&self, number: u32) -> InitialValueAssignmentKind {
        use InitialValueAssignmentKind as Kind;
        let words = self.file.record(INITIALIZERS, number as usize);
        let type_name = TypeName::of(words[1]);
        let value = linked(words[3]);
        let (first, count) = (words[4], words[5]);
        match words[0] {
            0 => Kind::None(type_name),
            1 => Kind::Interface(type_name),
            2 => Kind::Subrange(SubrangeInitialValueAssignment {
                spec: specification(words[1], inline_subrange()),
                initial_value: value.map(|value| self.signed_integer(value)),
            }),
            3 => Kind::Simple(SimpleInitializer {
                type_name,
                initial_value: value.map(|value| self.constant(value)),
            }),
            4 => Kind::String(StringInitializer {
                length: string_length(words[6]),
                width: string_width(words[7]),
                initial_value: value.map(|value| self.string(value)),
                keyword_span: KeywordSpan(type_name),
            }),
            5 => Kind::EnumeratedValues(EnumeratedValuesInitializer {
                values: InlineValues(type_name),
                initial_value: value.map(|value| self.enumerated(value)),
            }),
            6 => Kind::EnumeratedType(EnumeratedInitialValueAssignment {
                type_name,
                initial_value: value.map(|value| self.enumerated(value)),
            }),
            7 => Kind::FunctionBlock(FunctionBlockInitialValueAssignment {
                type_name,
                init: self.members(first, count),
            }),
            8 => Kind::Structure(StructureInitializationDeclaration {
                type_name,
                elements_init: self.members(first, count),
            }),
            9 => Kind::Array(ArrayInitialValueAssignment {
                spec: specification(words[1], inline_array(words[2])),
                initial_values: self.array(first, count),
            }),
            10 => Kind::Reference(ReferenceInitializer {
                target: ReferenceTarget::Named(type_name),
                initial_value: value.map(|value| self.reference(value)),
                syntax: RefSyntax::RefTo,
            }),
            11 => Kind::LateResolvedType(LateResolvedInitializer {
                type_name,
                initial_value: value.map(|value| self.constant(value)),
            }),
            12 => Kind::FunctionBlockCall(type_name),
            13 => Kind::SimpleExpr(type_name),
            14 => Kind::StringExpr(type_name),
            kind => panic!("no initializer is of kind {kind}"),
        }
    }
}

/// A subrange spelled in place, which has no name.
pub(crate) fn inline_subrange() -> SubrangeSpecification {
    SubrangeSpecification(TypeName::of(0))
}

/// An array spelled in place whose elements are of the type that
/// `element_link` leads to.
pub(crate) fn inline_array(element_link: u32) -> ArraySubranges {
    ArraySubranges {
        type_name: ArrayElementType(TypeName::of(element_link)),
        ref_to: None,
    }
}

/// The declared length that `word` stands for: 0 for none, the highest word
/// for one that is no integer, else one more than the length.
fn string_length(word: u32) -> Option<IntegerRef> {
    match word {
        0 => None,
        INLINE => Some(IntegerRef::Constant),
        _ => Some(IntegerRef::Literal(integer(u64::from(word - 1)))),
    }
}
