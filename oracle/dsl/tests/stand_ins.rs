//! What the unchanged files rely on in the stand-ins.

use ironplc_dsl::common::*;
use ironplc_dsl::core::{Id, SourceSpan};
use ironplc_dsl::textual::{Expr, ExprKind, Variable};
use ironplc_dsl::type_id::TypeId;

fn signed(value: u128, is_neg: bool) -> SignedInteger {
    let span = SourceSpan::synthesized();
    SignedInteger {
        value: Integer { span, value },
        is_neg,
    }
}

fn named(initializer: &InitialValueAssignmentKind) -> Option<u32> {
    match initializer.type_reference() {
        TypeReference::Named(name) => Some(name.id.number),
        TypeReference::Unnamed => None,
    }
}

#[test]
fn a_name_equals_its_copies() {
    let name = Id::new(7);
    assert!(!name.is_copy() && name.clone().is_copy());
    assert_eq!(name, name.clone());
    assert_ne!(name, Id::new(8));
}

#[test]
fn link_0_leads_to_no_type() {
    assert_eq!(TypeId::of_link(0), None);
    assert_eq!(TypeId::of_link(5), Some(TypeId(4)));
}

#[test]
fn an_integer_has_its_sign() {
    let most = u128::from(u64::MAX);
    assert_eq!(i128::try_from(signed(most, true)), Ok(-(most as i128)));
    assert_eq!(i128::try_from(signed(most, false)), Ok(most as i128));
    assert!(i128::try_from(signed(u128::MAX, false)).is_err());
}

#[test]
fn types_spelled_in_place_and_references_name_no_type() {
    let subrange = |spec| {
        let subrange = SubrangeInitialValueAssignment::bare(spec);
        InitialValueAssignmentKind::Subrange(subrange)
    };
    let inline = SubrangeSpecification(TypeName::of(0));
    let reference = InitialValueAssignmentKind::Reference(ReferenceInitializer {
        target: ReferenceTarget::Named(TypeName::of(4)),
        initial_value: None,
        syntax: RefSyntax::RefTo,
    });
    let none = InitialValueAssignmentKind::None(TypeName::of(4));
    let by_name = SpecificationKind::Named(TypeName::of(4));
    assert_eq!(named(&subrange(SpecificationKind::Inline(inline))), None);
    assert_eq!(named(&reference), None);
    assert_eq!(named(&subrange(by_name)), Some(4));
    assert_eq!(named(&none), Some(4));
}

#[test]
fn an_expression_made_of_a_variable_has_its_number() {
    let variable = Variable { expression: 9 };
    assert_eq!(Expr::new(ExprKind::Ref(Box::new(variable))).number, 9);
}
