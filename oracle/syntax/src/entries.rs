//! Entries (kind, name, two more) and expressions (kind, word).

use files::layout::{ENTRIES, EXPRESSIONS};
use ironplc_dsl::common::*;
use ironplc_dsl::core::{Id, SourceSpan};
use ironplc_dsl::textual::{Expr, ExprKind, ImplicitConversion, Variable};

use crate::constants::integer;
use crate::{linked, Syntax};

impl Syntax<'_> {
    /// The member list of `count` entries from `first`.
    pub(crate) fn members(&self, first: u32, count: u32) -> Vec<StructureElementInit> {
        let entries = first..first + count;
        entries.map(|number| self.member(number)).collect()
    }

    /// The array entries of `count` entries from `first`.
    pub(crate) fn array(&self, first: u32, count: u32) -> Vec<ArrayInitialElementKind> {
        let entries = first..first + count;
        entries.map(|number| self.array_entry(number)).collect()
    }

    /// Entry `number`, enumerated.
    pub(crate) fn enumerated(&self, number: u32) -> EnumeratedValue {
        let words = self.file.record(ENTRIES, number as usize);
        EnumeratedValue {
            type_name: match words[3] {
                0 => None,
                qualifier => Some(TypeName::of(qualifier)),
            },
            value: Id::new(words[2]),
            explicit_value: None,
        }
    }

    /// Expression `number`.
    pub(crate) fn expression(&self, number: u32) -> Expr {
        let words = self.file.record(EXPRESSIONS, number as usize);
        let kind = match words[0] {
            0 => ExprKind::Const(self.constant(words[1])),
            1 => ExprKind::EnumeratedValue(self.enumerated(words[1])),
            2 => ExprKind::Expression(Box::new(self.expression(words[1]))),
            3 => ExprKind::ImplicitConversion(Box::new(ImplicitConversion {
                value: self.expression(words[1]),
            })),
            4 => ExprKind::Null(SourceSpan::synthesized()),
            5 => ExprKind::Ref(Box::new(Variable { expression: number })),
            6 => ExprKind::Other,
            kind => panic!("no expression is of kind {kind}"),
        };
        Expr { kind, number }
    }

    /// Expression `number`, null or a variable reference, as a reference's
    /// value.
    pub(crate) fn reference(&self, number: u32) -> ReferenceInitialValue {
        match self.expression(number).kind {
            ExprKind::Ref(variable) => ReferenceInitialValue::Ref(*variable),
            ExprKind::Null(span) => ReferenceInitialValue::Null(span),
            kind => panic!("{kind:?} is no value of a reference"),
        }
    }

    /// Entry `number` of a member list.
    fn member(&self, number: u32) -> StructureElementInit {
        use StructInitialValueAssignmentKind as Kind;
        let words = self.file.record(ENTRIES, number as usize);
        StructureElementInit {
            name: Id::new(words[1]),
            init: match words[0] {
                0 => Kind::Constant(self.constant(words[2])),
                1 => Kind::EnumeratedValue(self.enumerated(number)),
                2 => Kind::Array(self.array(words[2], words[3])),
                3 => Kind::Structure(self.members(words[2], words[3])),
                4 => Kind::Expression(self.expression(words[2])),
                5 => Kind::LateBound(LateBoundValue),
                kind => panic!("no member is of kind {kind}"),
            },
        }
    }

    /// Entry `number` of an array.
    fn array_entry(&self, number: u32) -> ArrayInitialElementKind {
        use ArrayInitialElementKind as Kind;
        let words = self.file.record(ENTRIES, number as usize);
        match words[0] {
            0 => Kind::Constant(self.constant(words[2])),
            1 => Kind::EnumValue(self.enumerated(number)),
            3 => Kind::Structure(self.members(words[2], words[3])),
            4 => Kind::Expression(self.expression(words[2])),
            6 => Kind::Repeated(Repeated {
                size: integer(u64::from(words[2])),
                init: Box::new(linked(words[3]).map(|inner| self.array_entry(inner))),
            }),
            kind => panic!("no array entry is of kind {kind}"),
        }
    }
}
