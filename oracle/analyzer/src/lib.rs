//! The unchanged resolver, asked about the types and variables of a
//! declaration file. Compiled once for each default string length. With the
//! feature `limited` the resolver keeps document 01's limit on trees.

// The unchanged files, from the build folder.
include!(concat!(env!("OUT_DIR"), "/modules.rs"));

#[cfg(feature = "counted")]
pub mod count;
pub mod enumeration;
mod nodes;
pub mod parsed;
pub mod semantic_context;
mod shapes;
pub mod standard_function_block;
pub mod type_environment;

use answers::{Answers, Huge};
use files::layout::{File, TYPES, VARIABLES};
use ironplc_dsl::type_id::TypeId;
use semantic_context::SemanticContext;
use syntax::Syntax;
use type_environment::TypeEnvironment;
use xform_resolve_initial_values::access::Questions;

/// What the Rust answers for `file`, which must meet none of refusals 1 to 4
/// and have the default string length that this crate is compiled for.
pub fn answer(file: File) -> Result<Answers, Huge> {
    let syntax = Syntax::of(file);
    let context = SemanticContext::of(TypeEnvironment::of(file), syntax.library());
    let mut questions = Questions::about(&context);
    let mut answers = Answers::default();
    for number in 0..file.count(TYPES) as u32 {
        let value = questions.type_default(TypeId(number));
        if questions.met_limit() {
            answers.large.types.insert(number);
        }
        answers.types.push(nodes::of_value(value)?);
    }
    for number in 0..file.count(VARIABLES) as u32 {
        let variable = syntax.variable(number);
        let value = questions.declaration(&variable);
        if questions.met_limit() {
            answers.large.variables.insert(number);
        }
        answers.variables.push(nodes::of_value(value)?);
        let initializer = questions.completed(variable);
        answers.completed.push(nodes::of_initializer(initializer)?);
    }
    answers.circles = context.types().circles();
    Ok(answers)
}

/// For each variable with a value the type of the place of each of its nodes,
/// as text; none for a node without a place.
pub fn places(file: File) -> Vec<Option<Vec<Option<String>>>> {
    let syntax = Syntax::of(file);
    let context = SemanticContext::of(TypeEnvironment::of(file), syntax.library());
    let mut questions = Questions::about(&context);
    let variables = (0..file.count(VARIABLES) as u32).map(|number| syntax.variable(number));
    variables.map(|variable| questions.places(&variable)).collect()
}

/// The type of the words of a shape, as text. A name knows whether it is a
/// copy, as those of a place are.
pub fn shape_text(file: File, shape: &[u32]) -> String {
    let copy = shapes::of_words(file, shape).clone();
    format!("{copy:?}")
}
