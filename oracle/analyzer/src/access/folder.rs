//! A child module of xform_resolve_initial_values.rs, which may use its folder
//! and resolver.

use ironplc_dsl::common::{InitialValueAssignmentKind, VarDecl};
use ironplc_dsl::fold::Fold;
use ironplc_dsl::type_id::TypeId;

pub(crate) use super::value::Value;
use super::{InitialValueFolder, Resolver, SemanticContext};

/// Questions about one file, each answered by a fresh resolver.
pub(crate) struct Questions<'a> {
    context: &'a SemanticContext,
    folder: InitialValueFolder<'a>,
}

impl<'a> Questions<'a> {
    pub(crate) fn about(context: &'a SemanticContext) -> Self {
        let folder = Folding::of(context).folder;
        Questions { context, folder }
    }

    /// The default of type `id`.
    pub(crate) fn type_default(&mut self, id: TypeId) -> Option<Value> {
        self.fresh().resolver.default_of_type(id)
    }

    /// The value that `variable` starts with.
    pub(crate) fn declaration(&mut self, variable: &VarDecl) -> Option<Value> {
        self.fresh().resolver.declaration(variable)
    }

    /// The type of the place of each node of the value that `variable` starts
    /// with, as text.
    pub(crate) fn places(&mut self, variable: &VarDecl) -> Option<Vec<Option<String>>> {
        let resolver = &mut self.fresh().resolver;
        let value = resolver.declaration(variable)?;
        let places = resolver.places(variable, &value).into_iter();
        Some(places.map(|place| place.map(|place| format!("{place:?}"))).collect())
    }

    /// The completed initializer of `variable`, which must come from the file
    /// and be no copy; `None` if it is left as it is.
    pub(crate) fn completed(&mut self, variable: VarDecl) -> Option<InitialValueAssignmentKind> {
        let Ok(variable) = self.fresh().fold_var_decl(variable);
        let initializer = variable.initializer;
        initializer.is_completed().then_some(initializer)
    }

    /// Whether the last question ended because a tree was too large.
    pub(crate) fn met_limit(&self) -> bool {
        #[cfg(feature = "limited")]
        return super::resolver::access::limit::is_met();
        #[cfg(not(feature = "limited"))]
        false
    }

    fn fresh(&mut self) -> &mut InitialValueFolder<'a> {
        self.folder.resolver.renew(self.context.type_defaults());
        &mut self.folder
    }
}

/// One resolver for all variables, as the compiler has it.
pub(crate) struct Folding<'a> {
    folder: InitialValueFolder<'a>,
}

impl<'a> Folding<'a> {
    pub(crate) fn of(context: &'a SemanticContext) -> Self {
        let resolver = Resolver::new(context.types(), context.type_defaults());
        let types = context.types();
        Folding {
            folder: InitialValueFolder { types, resolver },
        }
    }

    /// Whether `variable` starts with a value.
    pub(crate) fn has_value(&mut self, variable: &VarDecl) -> bool {
        self.folder.resolver.declaration(variable).is_some()
    }

    /// The completed initializer of `variable`; `None` if it is left.
    pub(crate) fn completed(&mut self, variable: VarDecl) -> Option<InitialValueAssignmentKind> {
        let Ok(variable) = self.folder.fold_var_decl(variable);
        let initializer = variable.initializer;
        initializer.is_completed().then_some(initializer)
    }
}
