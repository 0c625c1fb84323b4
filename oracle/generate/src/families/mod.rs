//! Kinds of items that a file is made of. A file begins with one family by
//! its number; what follows is chosen among the same families at random.

mod aggregates;
mod blocks;
mod circles;
mod corners;
mod deep;
mod limits;
mod memory;
mod ordinary;
mod scalars;

pub use deep::many_levels;
pub use ordinary::{fill_a_section, longest_strings, surplus};

use crate::draft::Draft;
use crate::random::Random;

/// A kind of item, how many of the file numbers begin with it, and how
/// often it follows.
pub struct Family {
    pub name: &'static str,
    pub make: fn(&mut Draft),
    first: u32,
    later: u32,
}

const fn family(name: &'static str, make: fn(&mut Draft), first: u32, later: u32) -> Family {
    Family {
        name,
        make,
        first,
        later,
    }
}

/// The families. Those near the limit of 2,048 nodes come first in about 3
/// of 100 files and never later.
const FAMILIES: &[Family] = &[
    family("a type and a variable", ordinary::type_and_variable, 14, 30),
    family("a variable", ordinary::variable, 4, 30),
    family("an alias chain", ordinary::alias_chain, 4, 6),
    family("initializers without value", ordinary::bare_variables, 3, 4),
    family("any initializer", ordinary::any_variables, 3, 3),
    family("every declaration", ordinary::any_declarations, 3, 3),
    family(
        "aliases of every kind",
        ordinary::aliases_of_every_kind,
        2,
        1,
    ),
    family("late bound", ordinary::late_bound, 2, 1),
    family("range ends", scalars::range_ends, 8, 6),
    family("rounding ties", scalars::rounding_ties, 5, 4),
    family("reals", scalars::reals, 2, 1),
    family("times", scalars::times, 5, 4),
    family("booleans", scalars::booleans, 2, 1),
    family("strings", scalars::strings, 4, 3),
    family("default length", scalars::default_length, 1, 0),
    family("long strings", scalars::long_strings, 2, 1),
    family("string places", scalars::string_places, 3, 1),
    family("enumerations", scalars::enumerations, 3, 2),
    family("enumerations alike", scalars::enumerations_alike, 3, 2),
    family("subranges", scalars::subranges, 4, 3),
    family(
        "bit strings in subranges",
        scalars::bit_strings_in_subranges,
        2,
        1,
    ),
    family("references", scalars::references, 3, 2),
    family("interfaces", scalars::interfaces, 2, 1),
    family("arrays of arrays", aggregates::arrays_of_arrays, 4, 3),
    family(
        "structures through aliases",
        aggregates::structures_through_aliases,
        4,
        2,
    ),
    family("structures", aggregates::structures, 4, 4),
    family("repeats", aggregates::repeats, 5, 3),
    family("expressions", aggregates::expressions, 4, 2),
    family("members twice", aggregates::members_twice, 3, 1),
    family(
        "two fields of one name",
        aggregates::two_fields_of_one_name,
        2,
        1,
    ),
    family(
        "elements unlike the shape",
        aggregates::elements_unlike_shape,
        2,
        1,
    ),
    family("blocks", blocks::blocks, 5, 4),
    family("standard blocks", blocks::standard_blocks, 3, 2),
    family("blocks that disagree", blocks::blocks_that_disagree, 3, 1),
    family("block without record", blocks::block_without_record, 2, 1),
    family("aliases of blocks", blocks::aliases_of_blocks, 3, 1),
    family("circles", circles::circles, 5, 1),
    family("tangles", circles::tangles, 7, 0),
    family("subrange circles", circles::subrange_circles, 2, 1),
    family("alias base circles", circles::alias_base_circles, 2, 0),
    family("long alias chains", circles::long_alias_chains, 2, 0),
    family("zero repeats", corners::zero_repeats, 2, 1),
    family("nested repeats", corners::nested_repeats, 2, 1),
    family(
        "elements that are arrays",
        corners::elements_that_are_arrays,
        2,
        0,
    ),
    family(
        "expression then members",
        corners::expression_then_members,
        2,
        1,
    ),
    family("places left", corners::places_left, 3, 1),
    family("fields elsewhere", corners::fields_elsewhere, 3, 1),
    family("deep nesting", deep::some_levels, 3, 0),
    family("near the limit", limits::near_limit, 5, 0),
];

/// The families of files for start memory, each as often as its weight says.
const MEMORY: &[Family] = &[
    family("characters", memory::characters, 4, 4),
    family("rounded reals", memory::rounded_reals, 4, 4),
    family("widths", memory::widths, 4, 4),
    family("bases of subranges", memory::bases_of_subranges, 5, 4),
    family("members twice", memory::members_twice, 3, 2),
    family("nulls", memory::nulls, 4, 3),
    family("other lengths", memory::other_lengths, 3, 2),
    family("other shapes", memory::other_shapes, 4, 2),
    family("other strings", memory::other_strings, 3, 2),
    family("images", memory::images, 6, 8),
    family("empty structures", memory::empty_structures, 1, 1),
    family("strings", scalars::strings, 3, 3),
    family("string places", scalars::string_places, 2, 1),
    family("enumerations alike", scalars::enumerations_alike, 3, 2),
    family("references", scalars::references, 2, 2),
    family("two fields of one name", aggregates::two_fields_of_one_name, 2, 1),
    family("elements unlike the shape", aggregates::elements_unlike_shape, 2, 1),
    family("elements that are arrays", corners::elements_that_are_arrays, 2, 0),
    family("fields elsewhere", corners::fields_elsewhere, 2, 1),
    family("arrays of arrays", aggregates::arrays_of_arrays, 3, 2),
    family("structures through aliases", aggregates::structures_through_aliases, 3, 2),
    family("blocks", blocks::blocks, 3, 3),
    family("blocks that disagree", blocks::blocks_that_disagree, 3, 2),
    family("aliases of blocks", blocks::aliases_of_blocks, 2, 1),
];

/// Shares no factor with the number of places.
const STEP: u64 = 53;

/// How many file numbers go round once.
pub fn count() -> usize {
    FAMILIES.iter().map(|family| family.first as usize).sum()
}

/// The family that file `number` begins with.
pub fn at(number: u64) -> &'static Family {
    // Neighbouring numbers begin with different families.
    let mut left = (number % count() as u64 * STEP % count() as u64) as u32;
    for family in FAMILIES {
        if left < family.first {
            return family;
        }
        left -= family.first;
    }
    unreachable!("left is below the number of places")
}

/// The family that file `number` for start memory begins with.
pub fn memory_at(number: u64) -> &'static Family {
    let places = MEMORY.iter().map(|family| u64::from(family.first)).sum::<u64>();
    let mut left = (number % places) as u32;
    for family in MEMORY {
        if left < family.first {
            return family;
        }
        left -= family.first;
    }
    unreachable!("left is below the number of places")
}

/// A family for an item that follows in a file for start memory.
pub fn memory(random: &mut Random) -> &'static Family {
    let weights: Vec<u32> = MEMORY.iter().map(|family| family.later).collect();
    &MEMORY[random.weighted(&weights)]
}

/// A family for an item that follows.
pub fn ordinary(random: &mut Random) -> &'static Family {
    let weights: Vec<u32> = FAMILIES.iter().map(|family| family.later).collect();
    &FAMILIES[random.weighted(&weights)]
}

#[cfg(test)]
mod tests {
    use super::*;

    #[test]
    fn at_when_numbers_go_round_then_every_family() {
        for family in FAMILIES {
            let met = (0..count() as u64)
                .filter(|number| at(*number).name == family.name)
                .count();
            assert_eq!(met, family.first as usize, "{}", family.name);
        }
    }
}
