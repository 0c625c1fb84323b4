//! Folding a library, declaration by declaration.

use std::mem::take;

use crate::common::{
    FunctionBlockDeclaration, FunctionDeclaration, Library, LibraryElementKind, MethodDeclaration,
    ProgramDeclaration, VarDecl,
};

pub trait Fold<E> {
    fn fold_library(&mut self, library: Library) -> Result<Library, E> {
        let elements = library.elements.into_iter();
        let elements = elements.map(|element| self.fold_library_element(element));
        Ok(Library {
            elements: elements.collect::<Result<_, E>>()?,
        })
    }

    fn fold_library_element(&mut self, node: LibraryElementKind) -> Result<LibraryElementKind, E> {
        use LibraryElementKind as Kind;
        Ok(match node {
            Kind::DataTypeDeclaration(node) => Kind::DataTypeDeclaration(node),
            Kind::FunctionBlockDeclaration(node) => {
                Kind::FunctionBlockDeclaration(self.fold_function_block_declaration(node)?)
            }
            Kind::FunctionDeclaration(node) => {
                Kind::FunctionDeclaration(self.fold_function_declaration(node)?)
            }
            Kind::ProgramDeclaration(node) => {
                Kind::ProgramDeclaration(self.fold_program_declaration(node)?)
            }
        })
    }

    fn fold_var_decl(&mut self, node: VarDecl) -> Result<VarDecl, E> {
        Ok(node)
    }

    fn fold_program_declaration(
        &mut self,
        node: ProgramDeclaration,
    ) -> Result<ProgramDeclaration, E> {
        node.recurse_fold(self)
    }

    fn fold_function_block_declaration(
        &mut self,
        node: FunctionBlockDeclaration,
    ) -> Result<FunctionBlockDeclaration, E> {
        node.recurse_fold(self)
    }

    fn fold_function_declaration(
        &mut self,
        node: FunctionDeclaration,
    ) -> Result<FunctionDeclaration, E> {
        node.recurse_fold(self)
    }

    fn fold_method_declaration(&mut self, node: MethodDeclaration) -> Result<MethodDeclaration, E> {
        node.recurse_fold(self)
    }
}

/// Folds the variables of a declaration; a file has nothing else in one.
macro_rules! fold_variables {
    ($($declaration:ty),*) => {$(
        impl $declaration {
            pub fn recurse_fold<E, F: Fold<E> + ?Sized>(mut self, fold: &mut F) -> Result<Self, E> {
                let variables = take(&mut self.variables).into_iter();
                let variables = variables.map(|variable| fold.fold_var_decl(variable));
                self.variables = variables.collect::<Result<_, E>>()?;
                Ok(self)
            }
        }
    )*};
}

fold_variables!(
    ProgramDeclaration,
    FunctionBlockDeclaration,
    FunctionDeclaration,
    MethodDeclaration
);
