//! Constants.

use crate::common::TypeName;
use crate::core::{Id, Located, SourceSpan};
use crate::time::{DateAndTimeLiteral, DateLiteral, DurationLiteral, TimeOfDayLiteral};

#[derive(Debug, Clone)]
pub enum ConstantKind {
    Boolean(BooleanLiteral),
    IntegerLiteral(IntegerLiteral),
    BitStringLiteral(BitStringLiteral),
    RealLiteral(RealLiteral),
    Duration(DurationLiteral),
    TimeOfDay(TimeOfDayLiteral),
    Date(DateLiteral),
    DateAndTime(DateAndTimeLiteral),
    CharacterString(CharacterStringLiteral),
}

impl ConstantKind {
    pub fn with_span(self, _span: SourceSpan) -> Self {
        self
    }
}

impl Located for ConstantKind {
    fn span(&self) -> SourceSpan {
        SourceSpan::synthesized()
    }
}

#[derive(Debug, Clone, Copy, PartialEq)]
pub enum Boolean {
    True,
    False,
}

#[derive(Debug, Clone)]
pub struct BooleanLiteral {
    pub value: Boolean,
    pub span: SourceSpan,
}

#[derive(Debug, Clone)]
pub struct Integer {
    pub span: SourceSpan,
    pub value: u128,
}

#[derive(Debug, Clone)]
pub struct SignedInteger {
    pub value: Integer,
    pub is_neg: bool,
}

impl TryFrom<SignedInteger> for i128 {
    type Error = std::num::TryFromIntError;

    fn try_from(integer: SignedInteger) -> Result<i128, Self::Error> {
        let size = i128::try_from(integer.value.value)?;
        Ok(if integer.is_neg { -size } else { size })
    }
}

/// The type prefix of a literal, which files leave out.
#[derive(Debug, Clone)]
pub enum Prefix {}

#[derive(Debug, Clone)]
pub struct IntegerLiteral {
    pub value: SignedInteger,
    pub data_type: Option<Prefix>,
}

#[derive(Debug, Clone)]
pub struct BitStringLiteral {
    pub value: Integer,
}

#[derive(Debug, Clone)]
pub struct RealLiteral {
    pub value: f64,
    pub data_type: Option<Prefix>,
    pub span: SourceSpan,
}

/// Whether a string is a `STRING` or a `WSTRING`.
#[derive(Debug, Clone, PartialEq)]
pub enum StringType {
    String,
    WString,
}

/// A character, as its number in the file's section of characters: so a
/// string knows which part of the section it is.
#[derive(Debug, Clone, Copy, PartialEq)]
pub struct Character(pub u32);

#[derive(Debug, Clone)]
pub struct CharacterStringLiteral {
    pub value: Vec<Character>,
    pub width: StringType,
    pub span: SourceSpan,
}

/// The value that a member of an enumeration is declared with, which files
/// leave out.
#[derive(Debug, Clone)]
pub enum ExplicitValue {}

#[derive(Debug, Clone)]
pub struct EnumeratedValue {
    /// The qualifier.
    pub type_name: Option<TypeName>,
    pub value: Id,
    pub explicit_value: Option<ExplicitValue>,
}

/// The length of a string as it is declared.
#[derive(Debug, Clone)]
pub enum IntegerRef {
    Literal(Integer),
    /// A constant that was not resolved to an integer.
    Constant,
}

impl IntegerRef {
    pub fn as_integer(&self) -> Option<&Integer> {
        match self {
            IntegerRef::Literal(integer) => Some(integer),
            IntegerRef::Constant => None,
        }
    }
}
