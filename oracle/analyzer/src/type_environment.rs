//! Stand-in for the type environment, which answers from a file's records.

use std::cell::Cell;

use files::layout::{File, BLOCK_FIELDS, INLINE, SHAPES, TYPES};
use ironplc_dsl::common::TypeName;
use ironplc_dsl::core::Id;
use ironplc_dsl::type_id::TypeId;

use crate::semantic_type::FunctionBlockVarType;
use crate::shapes;
pub use crate::type_attributes::TypeAttributes;

/// The types of a file.
pub struct TypeEnvironment {
    types: Vec<Type>,
    /// By number the shapes that a type has.
    shapes: Vec<Option<TypeAttributes>>,
    circles: Cell<u64>,
}

struct Type {
    name: TypeName,
    shape: usize,
    alias_base: Option<TypeId>,
    element: Option<TypeId>,
    referenced: Option<TypeId>,
    block: Option<Vec<BlockField>>,
}

/// A field of a function block.
pub struct BlockField {
    pub name: Id,
    pub var_type: FunctionBlockVarType,
    pub field_type: Option<TypeId>,
}

impl TypeEnvironment {
    pub fn of(file: File) -> Self {
        let types: Vec<Type> = (0..file.count(TYPES))
            .map(|number| read_type(file, number))
            .collect();
        let mut shapes: Vec<Option<TypeAttributes>> = Vec::new();
        shapes.resize_with(file.count(SHAPES), || None);
        for Type { shape, .. } in &types {
            shapes[*shape]
                .get_or_insert_with(|| TypeAttributes::new(shapes::semantic_type(file, *shape)));
        }
        TypeEnvironment {
            types,
            shapes,
            circles: Cell::new(0),
        }
    }

    /// How often `block_fields` and `block_field` met a circle of alias bases
    /// without a block record.
    pub fn circles(&self) -> u64 {
        self.circles.get()
    }

    pub fn id_of(&self, type_name: &TypeName) -> Option<TypeId> {
        TypeId::of_link(type_name.id.number)
    }

    pub fn name_of(&self, id: TypeId) -> Option<&TypeName> {
        Some(&self.get(id)?.name)
    }

    pub fn get_by_id(&self, id: TypeId) -> Option<&TypeAttributes> {
        self.shapes[self.get(id)?.shape].as_ref()
    }

    pub fn alias_base(&self, id: TypeId) -> Option<TypeId> {
        self.get(id)?.alias_base
    }

    pub fn element_type(&self, id: TypeId) -> Option<TypeId> {
        self.get(id)?.element
    }

    pub fn referenced_type(&self, id: TypeId) -> Option<TypeId> {
        self.get(id)?.referenced
    }

    /// The fields of the block record of `id`, or of the first of its alias
    /// bases that has one.
    pub fn block_fields(&self, id: TypeId) -> Option<&[BlockField]> {
        let mut id = id;
        for _ in 0..self.types.len() {
            let record = self.get(id)?;
            if let Some(fields) = &record.block {
                return Some(fields);
            }
            id = record.alias_base?;
        }
        // More steps than types: a circle, from which the Rust does not return.
        self.circles.set(self.circles.get() + 1);
        None
    }

    /// The field `name` among them. No block extends another in a file.
    pub fn block_field(&self, id: TypeId, name: &Id) -> Option<&BlockField> {
        let mut fields = self.block_fields(id)?.iter();
        fields.find(|field| field.name == *name)
    }

    fn get(&self, id: TypeId) -> Option<&Type> {
        self.types.get(id.0 as usize)
    }
}

/// Type `number`. Its words 1 to 3 link to alias base, element and referenced
/// type; 9 and 10 are the run of block fields.
fn read_type(file: File, number: usize) -> Type {
    let words = file.record(TYPES, number);
    let (first, count) = (words[9], words[10]);
    Type {
        name: TypeName::of(number as u32 + 1),
        shape: words[0] as usize,
        alias_base: TypeId::of_link(words[1]),
        element: TypeId::of_link(words[2]),
        referenced: TypeId::of_link(words[3]),
        block: match first {
            INLINE => None,
            _ => Some(
                (first..first + count)
                    .map(|field| read_block_field(file, field as usize))
                    .collect(),
            ),
        },
    }
}

/// Block field `number`: name, link to type, kind.
fn read_block_field(file: File, number: usize) -> BlockField {
    let words = file.record(BLOCK_FIELDS, number);
    BlockField {
        name: Id::new(words[0]),
        var_type: match words[2] {
            0 => FunctionBlockVarType::Input,
            1 => FunctionBlockVarType::Output,
            2 => FunctionBlockVarType::InOut,
            _ => FunctionBlockVarType::Internal,
        },
        field_type: TypeId::of_link(words[1]),
    }
}
