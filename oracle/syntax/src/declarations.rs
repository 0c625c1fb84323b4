//! The declarations of types, and variables.

use files::layout::{ELEMENTS, TYPES, VARIABLES};
use ironplc_dsl::common::*;
use ironplc_dsl::core::Id;
use ironplc_dsl::type_id::TypeId;

use crate::initializers::{inline_array, inline_subrange};
use crate::{linked, specification, Syntax};

impl Syntax<'_> {
    /// The declarations of every type that has one, in rising number.
    pub fn library(&self) -> Library {
        let types = 0..self.file.count(TYPES) as u32;
        Library {
            elements: types.filter_map(|id| self.declaration(id)).collect(),
        }
    }

    /// Variable `number`: name or 0, kind, link to type, initializer.
    pub fn variable(&self, number: u32) -> VarDecl {
        let words = self.file.record(VARIABLES, number as usize);
        VarDecl {
            identifier: match words[0] {
                0 => VariableIdentifier::Direct,
                name => VariableIdentifier::Symbol(Id::new(name)),
            },
            var_type: match words[1] {
                0 => VariableType::Input,
                1 => VariableType::Output,
                2 => VariableType::InOut,
                3 => VariableType::External,
                4 => VariableType::Var,
                // Kind 5, any other: one that a block's instance doesn't hold.
                _ => VariableType::VarTemp,
            },
            qualifier: DeclarationQualifier::Unspecified,
            initializer: self.initializer(words[3]),
            block: next_block_id(),
            type_id: TypeId::of_link(words[2]),
            reset_on_call: false,
        }
    }

    /// The declaration of type `number`: its words 4 to 8 are declaration,
    /// named type, start value and run.
    fn declaration(&self, number: u32) -> Option<LibraryElementKind> {
        use DataTypeDeclarationKind as Kind;
        let words = self.file.record(TYPES, number as usize);
        let (named, start) = (words[5], linked(words[6]));
        let (first, count) = (words[7], words[8]);
        let type_name = TypeName::of(number + 1);
        Some(LibraryElementKind::DataTypeDeclaration(match words[4] {
            0 => return None,
            1 => Kind::Simple(SimpleDeclaration {
                type_name,
                spec_and_init: self.initializer(start.expect("a simple type has an initializer")),
            }),
            2 => Kind::Subrange(SubrangeDeclaration {
                type_name,
                spec: specification(named, inline_subrange()),
                default: start.map(|start| self.signed_integer(start)),
            }),
            3 => Kind::String(StringDeclaration {
                type_name,
                length: IntegerRef::Constant,
                width: StringType::String,
                init: start.map(|start| self.string(start)),
            }),
            4 => Kind::Array(ArrayDeclaration {
                type_name,
                spec: specification(named, inline_array(0)),
                init: self.array(first, count),
            }),
            5 => Kind::Structure(StructureDeclaration {
                type_name,
                elements: self.elements(first, count),
            }),
            6 => Kind::Reference(type_name),
            7 => Kind::Enumeration(type_name),
            8 => Kind::LateBound(type_name),
            9 => return Some(self.block(type_name, first, count)),
            declaration => panic!("no declaration is of kind {declaration}"),
        }))
    }

    /// The elements of a structure: name, initializer.
    fn elements(&self, first: u32, count: u32) -> Vec<StructureElementDeclaration> {
        (first..first + count)
            .map(|number| {
                let words = self.file.record(ELEMENTS, number as usize);
                StructureElementDeclaration {
                    name: Id::new(words[0]),
                    init: self.initializer(words[1]),
                }
            })
            .collect()
    }

    /// The function block `name` with its variables.
    fn block(&self, name: TypeName, first: u32, count: u32) -> LibraryElementKind {
        let variables = first..first + count;
        LibraryElementKind::FunctionBlockDeclaration(FunctionBlockDeclaration {
            name,
            variables: variables.map(|number| self.variable(number)).collect(),
        })
    }
}
