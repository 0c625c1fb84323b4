//! A child module of resolver.rs, which may call what is private there.

#[cfg(feature = "limited")]
pub(crate) mod limit;

use ironplc_dsl::common::VarDecl;
use ironplc_dsl::type_id::TypeId;

use super::{Place, Resolver, SemanticType, TypeDefaults, Value};

impl Resolver<'_> {
    /// `Resolver::type_default`, which is private.
    pub(crate) fn default_of_type(&mut self, id: TypeId) -> Option<Value> {
        self.type_default(id)
    }

    /// Makes the resolver what `Resolver::new` gave for `type_defaults`.
    ///
    /// A question only adds the defaults of types that weren't known, and ends
    /// with no type in progress, so taking those out does it. A new resolver
    /// for each question would copy every default of the file each time.
    pub(crate) fn renew(&mut self, type_defaults: &TypeDefaults) {
        let known = &type_defaults.defaults;
        self.defaults.retain(|id, _| known.contains_key(id));
        #[cfg(feature = "limited")]
        limit::renew(|id| known.contains_key(id));
        assert!(self.resolving.is_empty() && self.defaults.len() == known.len());
    }

    /// The type of the place of each node of `value`, which `declaration`
    /// starts with; none for a node without a place.
    pub(crate) fn places(&self, declaration: &VarDecl, value: &Value) -> Vec<Option<SemanticType>> {
        let mut places = Vec::new();
        self.push_places(&mut places, self.declaration_place(declaration), value);
        places
    }

    fn push_places(&self, places: &mut Vec<Option<SemanticType>>, place: Option<Place>, value: &Value) {
        places.push(place.as_ref().map(|place| place.representation.clone()));
        match value {
            Value::Array(values) => {
                let mut leaf = place;
                while leaf.as_ref().is_some_and(|leaf| leaf.representation.is_array()) {
                    leaf = leaf.and_then(|leaf| self.element_place(&leaf));
                }
                for value in values {
                    self.push_places(places, leaf.clone(), value);
                }
            }
            Value::Structure(fields) => {
                for field in fields {
                    let part = place.as_ref().and_then(|place| self.field_place(place, &field.name));
                    self.push_places(places, part, &field.value);
                }
            }
            _ => {}
        }
    }
}
