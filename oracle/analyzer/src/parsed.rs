//! A file as the compiler has it before start values are resolved, for
//! programs that measure what resolving takes.

use files::layout::{File, VARIABLES};
use ironplc_dsl::common::{Library, VarDecl};
use syntax::Syntax;

use crate::semantic_context::SemanticContext;
use crate::type_environment::TypeEnvironment;
use crate::xform_resolve_initial_values::access::Folding;

/// The types, the declarations and the variables of a file.
pub struct Parsed {
    types: TypeEnvironment,
    library: Library,
    variables: Vec<VarDecl>,
}

impl Parsed {
    pub fn of(file: File) -> Self {
        let syntax = Syntax::of(file);
        let numbers = 0..file.count(VARIABLES) as u32;
        Parsed {
            types: TypeEnvironment::of(file),
            library: syntax.library(),
            variables: numbers.map(|number| syntax.variable(number)).collect(),
        }
    }

    /// Resolves the declared types, then one variable. Whether it has a value.
    #[inline(never)]
    pub fn rust_variable(self, number: usize) -> bool {
        let context = SemanticContext::of(self.types, self.library);
        Folding::of(&context).has_value(&self.variables[number])
    }

    /// Resolves the declared types, then every variable, and completes its
    /// initializer. How many are completed.
    #[inline(never)]
    pub fn rust_whole(self) -> usize {
        let context = SemanticContext::of(self.types, self.library);
        let mut folding = Folding::of(&context);
        let variables = self.variables.into_iter();
        variables.filter_map(|variable| folding.completed(variable)).count()
    }
}
