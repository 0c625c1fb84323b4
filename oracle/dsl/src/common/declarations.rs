//! Declarations of types and variables.

use crate::common::*;
use crate::core::Id;
use crate::type_id::TypeId;

pub struct Library {
    pub elements: Vec<LibraryElementKind>,
}

pub enum LibraryElementKind {
    DataTypeDeclaration(DataTypeDeclarationKind),
    FunctionBlockDeclaration(FunctionBlockDeclaration),
    FunctionDeclaration(FunctionDeclaration),
    ProgramDeclaration(ProgramDeclaration),
}

#[derive(Debug, Clone)]
pub enum DataTypeDeclarationKind {
    Simple(SimpleDeclaration),
    Subrange(SubrangeDeclaration),
    String(StringDeclaration),
    Array(ArrayDeclaration),
    Structure(StructureDeclaration),
    /// These three, like the one below, hold only the name of the type that
    /// they declare: their defaults come from its representation.
    Reference(TypeName),
    Enumeration(TypeName),
    LateBound(TypeName),
    /// No file has one.
    StructureInitialization(TypeName),
}

impl DataTypeDeclarationKind {
    /// The type that is declared.
    pub fn type_name(&self) -> &TypeName {
        match self {
            Self::Simple(simple) => &simple.type_name,
            Self::Subrange(subrange) => &subrange.type_name,
            Self::String(string) => &string.type_name,
            Self::Array(array) => &array.type_name,
            Self::Structure(structure) => &structure.type_name,
            Self::Reference(name)
            | Self::Enumeration(name)
            | Self::LateBound(name)
            | Self::StructureInitialization(name) => name,
        }
    }
}

#[derive(Debug, Clone)]
pub struct SimpleDeclaration {
    pub type_name: TypeName,
    pub spec_and_init: InitialValueAssignmentKind,
}

#[derive(Debug, Clone)]
pub struct SubrangeDeclaration {
    pub type_name: TypeName,
    pub spec: SpecificationKind<SubrangeSpecification>,
    pub default: Option<SignedInteger>,
}

/// A string type. Its length and width are those of its shape; the two fields
/// are only there for `intermediates::string::from_decl`, which nothing calls.
#[derive(Debug, Clone)]
pub struct StringDeclaration {
    pub type_name: TypeName,
    pub length: IntegerRef,
    pub width: StringType,
    pub init: Option<CharacterStringLiteral>,
}

#[derive(Debug, Clone)]
pub struct ArrayDeclaration {
    pub type_name: TypeName,
    pub spec: SpecificationKind<ArraySubranges>,
    pub init: Vec<ArrayInitialElementKind>,
}

#[derive(Debug, Clone)]
pub struct StructureDeclaration {
    pub type_name: TypeName,
    pub elements: Vec<StructureElementDeclaration>,
}

#[derive(Debug, Clone)]
pub struct StructureElementDeclaration {
    pub name: Id,
    pub init: InitialValueAssignmentKind,
}

pub struct FunctionBlockDeclaration {
    pub name: TypeName,
    pub variables: Vec<VarDecl>,
}

pub struct ProgramDeclaration {
    pub variables: Vec<VarDecl>,
}

pub struct FunctionDeclaration {
    pub name: Id,
    pub return_type: FunctionReturnType,
    pub variables: Vec<VarDecl>,
    pub result: ResultVariable,
}

pub struct MethodDeclaration {
    pub name: Id,
    pub return_type: Option<FunctionReturnType>,
    pub variables: Vec<VarDecl>,
    pub result: ResultVariable,
}

pub enum FunctionReturnType {
    Named(TypeName),
    String(StringSpecification),
    WString(StringSpecification),
}

pub struct ResultVariable(pub Option<Box<VarDecl>>);

#[derive(Debug, Clone)]
pub struct VarDecl {
    pub identifier: VariableIdentifier,
    pub var_type: VariableType,
    pub qualifier: DeclarationQualifier,
    pub initializer: InitialValueAssignmentKind,
    pub block: BlockId,
    pub type_id: Option<TypeId>,
    pub reset_on_call: bool,
}

#[derive(Debug, Clone)]
pub enum VariableIdentifier {
    Symbol(Id),
    /// A variable that has an address and no name.
    Direct,
}

impl VariableIdentifier {
    pub fn symbolic_id(&self) -> Option<&Id> {
        match self {
            VariableIdentifier::Symbol(name) => Some(name),
            VariableIdentifier::Direct => None,
        }
    }
}

#[derive(Debug, Clone, Copy, PartialEq)]
pub enum VariableType {
    Input,
    Output,
    InOut,
    External,
    Var,
    VarTemp,
}

impl VariableType {
    pub fn is_local(&self) -> bool {
        matches!(self, VariableType::Var | VariableType::VarTemp)
    }
}

#[derive(Debug, Clone, Copy)]
pub enum DeclarationQualifier {
    Unspecified,
}

/// The block of declarations that a variable stands in, which files leave out.
#[derive(Debug, Clone, Copy)]
pub struct BlockId;

pub fn next_block_id() -> BlockId {
    BlockId
}
