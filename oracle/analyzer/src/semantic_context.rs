//! Stand-in for the semantic context: the types and their defaults.

use ironplc_dsl::common::Library;

use crate::type_environment::TypeEnvironment;
use crate::xform_resolve_initial_values::TypeDefaults;

pub struct SemanticContext {
    types: TypeEnvironment,
    type_defaults: TypeDefaults,
}

impl SemanticContext {
    /// The context of `types`, with the default of every type that `library`
    /// declares.
    pub(crate) fn of(types: TypeEnvironment, library: Library) -> Self {
        let type_defaults = TypeDefaults::of(&types, &library);
        SemanticContext {
            types,
            type_defaults,
        }
    }

    pub fn types(&self) -> &TypeEnvironment {
        &self.types
    }

    pub(crate) fn type_defaults(&self) -> &TypeDefaults {
        &self.type_defaults
    }
}
