//! Values and completed initializers as nodes.

use answers::{Completed, Huge, Node, Tree, MOST_NODES};
use ironplc_dsl::common::*;
use ironplc_dsl::core::Id;
use ironplc_dsl::textual::{Expr, ExprKind};
use ironplc_dsl::time::TemporalWidth;

use crate::xform_resolve_initial_values::access::Value;

/// The words of a node behind its name: kind, sign, low, high, width.
type Words = [u32; 5];

const INTEGER: u32 = 1;
const ENUMERATED: u32 = 9;
const NULL: u32 = 10;
const REFERENCE: u32 = 11;
const EXPRESSION: u32 = 12;
const ARRAY: u32 = 13;
const STRUCTURE: u32 = 14;

/// The name of a node that is not a field.
const NAMELESS: u32 = 0;

/// The nodes of `value`.
pub fn of_value(value: Option<Value>) -> Result<Option<Tree>, Huge> {
    let Some(value) = value else {
        return Ok(None);
    };
    let mut tree = Tree::new();
    push_value(&mut tree, NAMELESS, &value);
    within_limit(tree).map(Some)
}

/// The kind of `initializer` and the nodes in its value slot.
pub fn of_initializer(
    initializer: Option<InitialValueAssignmentKind>,
) -> Result<Option<Completed>, Huge> {
    let Some(initializer) = initializer else {
        return Ok(None);
    };
    let mut tree = Tree::new();
    let kind = push_initializer(&mut tree, initializer);
    let tree = within_limit(tree)?;
    Ok(Some(Completed { kind, tree }))
}

fn within_limit(tree: Tree) -> Result<Tree, Huge> {
    match tree.len() <= MOST_NODES {
        true => Ok(tree),
        false => Err(Huge),
    }
}

fn push_value(tree: &mut Tree, name: u32, value: &Value) {
    match value {
        Value::Constant(constant) => push(tree, name, constant_words(constant)),
        Value::Enumerated(value) => push(tree, name, enumerated_words(value)),
        Value::Reference(reference) => push(tree, name, reference_words(reference)),
        Value::Expression(expr) => push(tree, name, number_words(EXPRESSION, expr.number)),
        Value::Array(values) => {
            push(tree, name, head_words(ARRAY, values.len()));
            for value in values {
                push_value(tree, NAMELESS, value);
            }
        }
        Value::Structure(fields) => {
            push(tree, name, head_words(STRUCTURE, fields.len()));
            for field in fields {
                push_value(tree, field.name.number, &field.value);
            }
        }
    }
}

/// Pushes what the value slot of a completed `initializer` holds, and gives
/// the initializer's kind.
fn push_initializer(tree: &mut Tree, initializer: InitialValueAssignmentKind) -> u32 {
    use InitialValueAssignmentKind as Kind;
    let filled = "a completed initializer holds a value";
    match initializer {
        Kind::Subrange(subrange) => {
            let integer = subrange.initial_value.expect(filled);
            push(tree, NAMELESS, signed_integer_words(&integer));
            2
        }
        Kind::Simple(simple) => {
            let constant = simple.initial_value.expect(filled);
            push(tree, NAMELESS, constant_words(&constant));
            3
        }
        Kind::String(string) => {
            let literal = string.initial_value.expect(filled);
            push(tree, NAMELESS, string_words(&literal));
            4
        }
        Kind::EnumeratedValues(values) => {
            let value = values.initial_value.expect(filled);
            push(tree, NAMELESS, enumerated_words(&value));
            5
        }
        Kind::EnumeratedType(enumerated) => {
            let value = enumerated.initial_value.expect(filled);
            push(tree, NAMELESS, enumerated_words(&value));
            6
        }
        Kind::FunctionBlock(block) => {
            push_members(tree, NAMELESS, &block.init);
            7
        }
        Kind::Structure(structure) => {
            push_members(tree, NAMELESS, &structure.elements_init);
            8
        }
        Kind::Array(array) => {
            push_elements(tree, NAMELESS, &array.initial_values);
            9
        }
        Kind::Reference(reference) => {
            let value = reference.initial_value.expect(filled);
            push(tree, NAMELESS, reference_words(&value));
            10
        }
        other => panic!("{other:?} has no value slot"),
    }
}

fn push_members(tree: &mut Tree, name: u32, members: &[StructureElementInit]) {
    use StructInitialValueAssignmentKind as Kind;
    push(tree, name, head_words(STRUCTURE, members.len()));
    for StructureElementInit { name, init } in members {
        let name = name.number;
        match init {
            Kind::Constant(constant) => push(tree, name, constant_words(constant)),
            Kind::EnumeratedValue(value) => push(tree, name, enumerated_words(value)),
            Kind::Array(elements) => push_elements(tree, name, elements),
            Kind::Structure(members) => push_members(tree, name, members),
            Kind::Expression(expr) => push(tree, name, expression_words(expr)),
            Kind::LateBound(_) => panic!("a completed member is bound"),
        }
    }
}

fn push_elements(tree: &mut Tree, name: u32, elements: &[ArrayInitialElementKind]) {
    use ArrayInitialElementKind as Kind;
    push(tree, name, head_words(ARRAY, elements.len()));
    for element in elements {
        match element {
            Kind::Constant(constant) => push(tree, NAMELESS, constant_words(constant)),
            Kind::EnumValue(value) => push(tree, NAMELESS, enumerated_words(value)),
            Kind::Structure(members) => push_members(tree, NAMELESS, members),
            Kind::Expression(expr) => push(tree, NAMELESS, expression_words(expr)),
            Kind::Repeated(_) => panic!("a completed array repeats nothing"),
        }
    }
}

fn push(tree: &mut Tree, name: u32, words: Words) {
    let [kind, sign, low, high, width] = words;
    let node: Node = [name, kind, sign, low, high, width];
    tree.push(node);
}

fn head_words(kind: u32, parts: usize) -> Words {
    number_words(
        kind,
        u32::try_from(parts).expect("memory holds fewer parts"),
    )
}

fn number_words(kind: u32, number: u32) -> Words {
    [kind, 0, number, 0, 0]
}

fn enumerated_words(value: &EnumeratedValue) -> Words {
    let qualifier = value.type_name.as_ref().map(|name| &name.id);
    let qualifier = qualifier.map_or(0, |Id { number, .. }| *number);
    [ENUMERATED, 0, value.value.number, qualifier, 0]
}

fn reference_words(reference: &ReferenceInitialValue) -> Words {
    match reference {
        ReferenceInitialValue::Null(_) => number_words(NULL, 0),
        ReferenceInitialValue::Ref(variable) => number_words(REFERENCE, variable.expression),
    }
}

/// An expression in a completed initializer, where `NULL` may be one.
fn expression_words(expr: &Expr) -> Words {
    match &expr.kind {
        ExprKind::Null(_) => number_words(NULL, 0),
        _ => number_words(EXPRESSION, expr.number),
    }
}

fn constant_words(constant: &ConstantKind) -> Words {
    match constant {
        ConstantKind::Boolean(literal) => match literal.value {
            Boolean::False => [0, 0, 0, 0, 0],
            Boolean::True => [0, 0, 1, 0, 0],
        },
        ConstantKind::IntegerLiteral(literal) => signed_integer_words(&literal.value),
        ConstantKind::BitStringLiteral(literal) => sized(2, false, literal.value.value, 0),
        ConstantKind::RealLiteral(literal) => {
            sized(3, false, u128::from(literal.value.to_bits()), 0)
        }
        ConstantKind::Duration(literal) => {
            let milliseconds = literal.interval.milliseconds;
            let width = temporal_width(literal.width);
            sized(4, milliseconds < 0, milliseconds.unsigned_abs(), width)
        }
        ConstantKind::TimeOfDay(literal) => {
            let width = temporal_width(literal.width);
            sized(5, false, u128::from(literal.milliseconds), width)
        }
        ConstantKind::Date(literal) => {
            let width = temporal_width(literal.width);
            sized(6, false, u128::from(literal.seconds), width)
        }
        ConstantKind::DateAndTime(literal) => {
            let width = temporal_width(literal.width);
            sized(7, false, u128::from(literal.seconds), width)
        }
        ConstantKind::CharacterString(literal) => string_words(literal),
    }
}

fn signed_integer_words(integer: &SignedInteger) -> Words {
    sized(INTEGER, integer.is_neg, integer.value.value, 0)
}

/// A string's low and high words are the run of its characters.
fn string_words(literal: &CharacterStringLiteral) -> Words {
    let first = literal.value.first().map_or(0, |character| character.0);
    let width = match literal.width {
        StringType::String => 0,
        StringType::WString => 1,
    };
    [8, 0, first, literal.value.len() as u32, width]
}

fn sized(kind: u32, is_negative: bool, size: u128, width: u32) -> Words {
    let size = u64::try_from(size).expect("no size in a file has more than 64 bits");
    let (low, high) = (size as u32, (size >> 32) as u32);
    [kind, u32::from(is_negative), low, high, width]
}

fn temporal_width(width: TemporalWidth) -> u32 {
    match width {
        TemporalWidth::Short => 0,
        TemporalWidth::Long => 1,
    }
}
