//! A child module of enumeration_members.rs, whose fields are private. No
//! public function gives members a default's place past the last of them.

use ironplc_dsl::core::Id;

use super::{EnumerationMember, EnumerationMembers};

/// The members `names` with the default at place `default`.
pub(crate) fn members(names: impl Iterator<Item = Id>, default: usize) -> EnumerationMembers {
    let numbered = names.zip(0..);
    EnumerationMembers {
        members: numbered
            .map(|(name, ordinal)| EnumerationMember { name, ordinal })
            .collect(),
        default,
    }
}
