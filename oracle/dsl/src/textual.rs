//! Expressions.

use crate::common::{ConstantKind, EnumeratedValue};
use crate::core::SourceSpan;

/// An expression, which knows its number in the file.
#[derive(Debug, Clone)]
pub struct Expr {
    pub kind: ExprKind,
    pub number: u32,
}

#[derive(Debug, Clone)]
pub enum ExprKind {
    Const(ConstantKind),
    EnumeratedValue(EnumeratedValue),
    Expression(Box<Expr>),
    ImplicitConversion(Box<ImplicitConversion>),
    Null(SourceSpan),
    Ref(Box<Variable>),
    /// Any other expression, whose parts a file leaves out.
    Other,
}

#[derive(Debug, Clone)]
pub struct ImplicitConversion {
    pub value: Expr,
}

/// The variable that a reference refers to: the number of the expression that
/// refers to it.
#[derive(Debug, Clone)]
pub struct Variable {
    pub expression: u32,
}

impl Expr {
    /// The expression that value.rs makes of a reference. A variable brings
    /// its number; `NULL` needs none, since no answer prints it.
    pub fn new(kind: ExprKind) -> Self {
        let number = match &kind {
            ExprKind::Ref(variable) => variable.expression,
            _ => 0,
        };
        Expr { kind, number }
    }
}
