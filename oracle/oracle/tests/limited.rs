//! Document 01's limit on trees (refusal 8), with the feature `limited`.

mod common;

use answers::Answers;
use common::*;
use files::layout::*;

/// What comes of a type or variable.
#[derive(Debug, PartialEq)]
enum Answer {
    /// A tree of so many nodes.
    Nodes(usize),
    None,
    Large,
}
use Answer::{Large, Nodes};

fn types(answers: &Answers) -> Vec<Answer> {
    let trees = (0..).zip(&answers.types);
    let answers = trees.map(|(number, tree)| match tree {
        Some(tree) => Nodes(tree.len()),
        None if answers.large.types.contains(&number) => Large,
        None => Answer::None,
    });
    answers.collect()
}

fn last_type(draft: &Draft) -> Answer {
    types(&draft.answers()).pop().expect("there is a type")
}

/// The answer for the only variable, which is left unless it has a value.
fn variable(draft: &Draft) -> Answer {
    let answers = draft.answers();
    assert_eq!(answers.variables.len(), 1);
    if let Some(tree) = &answers.variables[0] {
        return Nodes(tree.len());
    }
    assert_eq!(answers.completed, [None]);
    match answers.large.variables.contains(&0) {
        true => Large,
        false => Answer::None,
    }
}

/// A draft whose shape 0 and type 0 are INT.
fn draft() -> Draft {
    let mut draft = Draft::new();
    draft.plain(INT);
    draft
}
const INT_SHAPE: u32 = 0;
const INT_TYPE: u32 = 1;

/// An array shape of `places` places of shape `element`.
fn array_shape(draft: &mut Draft, element: u32, places: u32) -> u32 {
    let dimension = draft.push(DIMENSIONS, &[1, places]);
    draft.shape([12, element, dimension, 1, 0])
}

/// An undeclared type of ARRAY[1..places] OF INT; gives its link.
fn ints(draft: &mut Draft, places: u32) -> u32 {
    let shape = array_shape(draft, INT_SHAPE, places);
    draft.type_of(shape, [0, INT_TYPE, 0], [0; 5])
}

/// A structure shape with a field of each of `shapes`, names from 1.
fn structure_shape(draft: &mut Draft, shapes: &[u32]) -> u32 {
    let names = 1..=shapes.len() as u32;
    let fields = names.zip(shapes);
    let numbers: Vec<u32> = fields
        .map(|(name, shape)| draft.push(SHAPE_FIELDS, &[name, *shape, 0]))
        .collect();
    draft.shape([11, numbers[0], shapes.len() as u32, 0, 0])
}

/// An interface, which has no value; gives its shape.
fn interface(draft: &mut Draft) -> u32 {
    draft.shape([15, 1, 0, 0, 0])
}

fn seven(draft: &mut Draft) -> [u32; 4] {
    [0, 0, draft.integer(7), 0]
}

/// An entry that no INT takes.
fn yes(draft: &mut Draft) -> [u32; 4] {
    [0, 0, draft.constant([0, 0, 1, 0, 0]), 0]
}

/// `count(inner)`, the entry `inner` pushed ahead of it.
fn repeat(draft: &mut Draft, count: u32, inner: [u32; 4]) -> [u32; 4] {
    [6, 0, count, draft.entry(inner) + 1]
}

/// `count()`.
fn empty_repeat(count: u32) -> [u32; 4] {
    [6, 0, count, 0]
}

/// An entry whose members are `members`, in their order.
fn members(draft: &mut Draft, members: &[[u32; 4]]) -> [u32; 4] {
    let numbers: Vec<u32> = members.iter().map(|member| draft.entry(*member)).collect();
    let first = numbers.first().copied().unwrap_or(0);
    [3, 0, first, members.len() as u32]
}

/// Adds a variable of the array type `array` with the list `entries`.
fn listed(draft: &mut Draft, array: u32, entries: &[[u32; 4]]) {
    let numbers: Vec<u32> = entries.iter().map(|entry| draft.entry(*entry)).collect();
    let count = entries.len() as u32;
    draft.variable(array, [9, array, 0, 0, numbers[0], count, 0, 0]);
}

/// The value of ARRAY[1..places] OF INT with the list that `entries` makes.
fn ints_with(places: u32, entries: impl Fn(&mut Draft) -> Vec<[u32; 4]>) -> Answer {
    let mut draft = draft();
    let array = ints(&mut draft, places);
    let entries = entries(&mut draft);
    listed(&mut draft, array, &entries);
    variable(&draft)
}

#[test]
fn an_array_of_2048_int_is_too_large() {
    for (places, expected) in [(2_047, Nodes(2_048)), (2_048, Large), (65_536, Large)] {
        let mut draft = draft();
        let array = ints(&mut draft, places);
        draft.variable(array, simple(array, None));
        assert_eq!(last_type(&draft), expected);
        assert_eq!(variable(&draft), expected);
    }
}

#[test]
fn an_array_of_arrays_counts_its_innermost_values() {
    for (rows, expected) in [(1, Nodes(2_048)), (2, Large), (65_536, Large)] {
        let mut draft = draft();
        let row = ints(&mut draft, 2_047);
        let shape = array_shape(&mut draft, INT_SHAPE + 1, rows);
        draft.type_of(shape, [0, row, 0], [0; 5]);
        assert_eq!(last_type(&draft), expected);
    }
}

#[test]
fn values_are_counted_before_they_are_too_many() {
    let sevens = |count| move |draft: &mut Draft| vec![seven(draft); count];
    assert_eq!(ints_with(2_047, sevens(2_047)), Nodes(2_048));
    assert_eq!(ints_with(2_047, sevens(2_048)), Large);
    assert_eq!(ints_with(2_046, sevens(2_047)), Answer::None);
}

#[test]
fn copies_are_counted_before_they_are_too_many() {
    let copies = |draft: &mut Draft| {
        let seven = seven(draft);
        let half = repeat(draft, 1_024, seven);
        vec![repeat(draft, 2, half)]
    };
    assert_eq!(ints_with(2_047, copies), Large);
    assert_eq!(ints_with(2_046, copies), Large);
    // The first copy has too many values, and 1,025 nodes.
    let once_more = |draft: &mut Draft| {
        let seven = seven(draft);
        let half = repeat(draft, 1_024, seven);
        vec![half, half]
    };
    assert_eq!(ints_with(1_500, once_more), Answer::None);
}

#[test]
fn a_repeat_behind_the_last_place_is_none_first() {
    // No place is left for the repetition, which is one value.
    let list = |draft: &mut Draft| {
        let seven = seven(draft);
        vec![repeat(draft, 2_047, seven), repeat(draft, 1, seven)]
    };
    assert_eq!(ints_with(2_047, list), Answer::None);
}

#[test]
fn an_empty_repeat_looks_for_its_defaults_first() {
    assert_eq!(
        ints_with(2_047, |_| vec![empty_repeat(2_047)]),
        Nodes(2_048)
    );
    assert_eq!(
        ints_with(2_047, |_| vec![empty_repeat(2_048)]),
        Answer::None
    );
    let two = |_: &mut Draft| vec![empty_repeat(2_047), empty_repeat(1)];
    assert_eq!(ints_with(2_047, two), Answer::None);
}

#[test]
fn defaults_are_counted_before_any_entry() {
    let list = |draft: &mut Draft| vec![yes(draft)];
    assert_eq!(ints_with(2_047, list), Answer::None);
    assert_eq!(ints_with(2_048, list), Large);
}

#[test]
fn a_repetition_counts_although_it_is_not_copied() {
    let list = |count| {
        move |draft: &mut Draft| {
            let seven = seven(draft);
            let inner = repeat(draft, count, seven);
            let twice = repeat(draft, 2, inner);
            vec![repeat(draft, 0, twice)]
        }
    };
    assert_eq!(ints_with(2_047, list(1_023)), Nodes(2_048));
    assert_eq!(ints_with(2_047, list(1_024)), Large);
}

#[test]
fn a_structure_entry_looks_for_its_default_first() {
    // One place of a structure with two fields and 2,047 nodes.
    for (is_structure, expected) in [(true, Answer::None), (false, Large)] {
        let mut draft = draft();
        let long = array_shape(&mut draft, INT_SHAPE, 2_044);
        let structure = structure_shape(&mut draft, &[long, INT_SHAPE]);
        let array = array_shape(&mut draft, structure, 1);
        let array = draft.undeclared(array);
        let other = draft.push(EXPRESSIONS, &[6, 0]);
        let whole = members(&mut draft, &[]);
        let last = match is_structure {
            true => whole,
            false => [4, 0, other, 0],
        };
        listed(&mut draft, array, &[whole, last]);
        assert_eq!(last_type(&draft), Nodes(2_048));
        assert_eq!(variable(&draft), expected);
    }
}

/// A draft and the shapes of three fields: an array of `places` INT, an INT and
/// an interface, which has no value.
fn three_shapes(places: u32) -> (Draft, [u32; 3]) {
    let mut draft = draft();
    let array = array_shape(&mut draft, INT_SHAPE, places);
    let interface = interface(&mut draft);
    (draft, [array, INT_SHAPE, interface])
}

/// By the places of the array, what comes of the first two fields and of all:
/// the structure's head, the array's, its places and an INT.
const OF_THREE_FIELDS: [(u32, Answer, Answer); 2] =
    [(2_045, Nodes(2_048), Answer::None), (2_046, Large, Large)];

#[test]
fn an_implicit_structure_counts_after_each_field() {
    for (places, two, all) in OF_THREE_FIELDS {
        for (count, expected) in [(2, two), (3, all)] {
            let (mut draft, shapes) = three_shapes(places);
            let shape = structure_shape(&mut draft, &shapes[..count]);
            draft.undeclared(shape);
            assert_eq!(last_type(&draft), expected);
        }
    }
}

#[test]
fn a_declared_structure_counts_after_each_field() {
    for (places, two, all) in OF_THREE_FIELDS {
        for (count, expected) in [(2, two), (3, all)] {
            let (mut draft, shapes) = three_shapes(places);
            let shape = structure_shape(&mut draft, &shapes);
            let initializer = draft.initializer([0; 8]);
            for name in 1..=3 {
                draft.push(ELEMENTS, &[name, initializer]);
            }
            draft.type_of(shape, [0; 3], [5, 0, 0, 0, count]);
            assert_eq!(last_type(&draft), expected);
        }
    }
}

#[test]
fn a_declared_block_counts_after_each_variable() {
    for (places, two, all) in OF_THREE_FIELDS {
        for (count, expected) in [(2, two), (3, all)] {
            let (mut draft, shapes) = three_shapes(places);
            for shape in shapes {
                let link = draft.undeclared(shape);
                draft.variable(link, simple(link, None));
            }
            let shape = draft.shape([14, 3, 0, 0, 0]);
            draft.type_of(shape, [0; 3], [9, 0, 0, 0, count]);
            assert_eq!(last_type(&draft), expected);
        }
    }
}

#[test]
fn an_undeclared_block_counts_after_each_field() {
    for (places, two, all) in OF_THREE_FIELDS {
        for (count, expected) in [(2, two), (3, all)] {
            let (mut draft, shapes) = three_shapes(places);
            for (name, shape) in (1..).zip(shapes) {
                let link = draft.undeclared(shape);
                draft.push(BLOCK_FIELDS, &[name, link, 3]);
            }
            let shape = draft.shape([14, 3, 0, 0, 0]);
            draft.push(TYPES, &[shape, 0, 0, 0, 0, 0, 0, 0, 0, 0, count]);
            assert_eq!(last_type(&draft), expected);
        }
    }
}

#[test]
fn a_structure_around_the_largest_array_is_too_large() {
    let mut draft = draft();
    ints(&mut draft, 2_047);
    let shape = structure_shape(&mut draft, &[INT_SHAPE + 1]);
    draft.undeclared(shape);
    let expected = [Nodes(1), Nodes(2_048), Large];
    assert_eq!(types(&draft.answers()), expected);
}

/// A declared structure with two fields, each of shape ARRAY[1..places] OF INT
/// and null by its declaration: three nodes, and more where an entry sets them.
/// Gives the type's link.
fn null_arrays(draft: &mut Draft, places: u32) -> u32 {
    let array = array_shape(draft, INT_SHAPE, places);
    let shape = structure_shape(draft, &[array, array]);
    let null = draft.push(EXPRESSIONS, &[4, 0]);
    let initializer = draft.initializer([10, 0, 0, null + 1, 0, 0, 0, 0]);
    draft.push(ELEMENTS, &[1, initializer]);
    draft.push(ELEMENTS, &[2, initializer]);
    draft.type_of(shape, [0; 3], [5, 0, 0, 0, 2])
}

/// A member entry that sets the field `name` to an array's defaults.
fn all_defaults(name: u32) -> [u32; 4] {
    [2, name, 0, 0]
}

#[test]
fn members_count_after_each_replacement() {
    // Two heads, the places and the other null; or two arrays.
    let lists: [(u32, &[u32], Answer); 5] = [
        (2_045, &[1], Nodes(2_048)),
        (2_046, &[1], Large),
        (1_022, &[1, 2], Nodes(2_047)),
        (1_023, &[1, 2], Large),
        (2_047, &[], Nodes(3)),
    ];
    for (places, names, expected) in lists {
        let mut draft = draft();
        let structure = null_arrays(&mut draft, places);
        let entries: Vec<[u32; 4]> = names.iter().map(|name| all_defaults(*name)).collect();
        let [_, _, first, count] = members(&mut draft, &entries);
        draft.variable(structure, [8, structure, 0, 0, first, count, 0, 0]);
        assert_eq!(last_type(&draft), Nodes(3));
        assert_eq!(variable(&draft), expected);
    }
}

#[test]
fn a_replacement_that_is_too_large_comes_before_a_failing_one() {
    for (places, expected) in [(2_045, Answer::None), (2_046, Large)] {
        let mut draft = draft();
        let structure = null_arrays(&mut draft, places);
        let five = draft.integer(5);
        let entries = [all_defaults(1), [0, 2, five, 0]];
        let [_, _, first, count] = members(&mut draft, &entries);
        draft.variable(structure, [8, structure, 0, 0, first, count, 0, 0]);
        assert_eq!(variable(&draft), expected);
    }
}

/// The value of an array of two structures of `null_arrays` with the list that
/// `entries` makes from an entry that sets the first field.
fn null_arrays_with(
    places: u32,
    entries: impl Fn(&mut Draft, [u32; 4]) -> Vec<[u32; 4]>,
) -> Answer {
    let mut draft = draft();
    let structure = null_arrays(&mut draft, places);
    let array = array_shape(&mut draft, INT_SHAPE + 2, 2);
    let array = draft.type_of(array, [0, structure, 0], [0; 5]);
    let entry = members(&mut draft, &[all_defaults(1)]);
    let entries = entries(&mut draft, entry);
    listed(&mut draft, array, &entries);
    assert_eq!(last_type(&draft), Nodes(7));
    variable(&draft)
}

#[test]
fn an_entry_that_is_too_large_counts_although_it_is_not_copied() {
    let list = |draft: &mut Draft, entry| vec![repeat(draft, 0, entry)];
    // The repetition has one head more than the entry, which has two.
    assert_eq!(null_arrays_with(2_044, list), Nodes(7));
    assert_eq!(null_arrays_with(2_045, list), Large);
    assert_eq!(null_arrays_with(2_046, list), Large);
}

#[test]
fn places_taken_by_default_count_one_by_one() {
    // Three heads, the places and a null; then a structure of three nodes.
    let once = |_: &mut Draft, entry| vec![entry, empty_repeat(1)];
    let twice = |_: &mut Draft, entry| vec![entry, empty_repeat(2)];
    assert_eq!(null_arrays_with(2_041, once), Nodes(2_048));
    assert_eq!(null_arrays_with(2_042, once), Large);
    // The second default isn't there, but the first is already too large.
    assert_eq!(null_arrays_with(2_041, twice), Answer::None);
    assert_eq!(null_arrays_with(2_042, twice), Large);
}

#[test]
fn the_places_left_count_in_the_end() {
    let list = |_: &mut Draft, entry| vec![entry];
    assert_eq!(null_arrays_with(2_041, list), Nodes(2_048));
    assert_eq!(null_arrays_with(2_042, list), Large);
}

/// The shape of a subrange 1..9 of INT.
fn subrange_shape(draft: &mut Draft) -> u32 {
    let (least, greatest) = (draft.integer(1), draft.integer(9));
    draft.shape([13, INT_SHAPE, least, greatest, 0])
}

/// A declared subrange of shape `shape` over the type `base` with start value 5.
fn subrange_from_5(draft: &mut Draft, shape: u32, base: u32) {
    let five = draft.integer(5);
    draft.type_of(shape, [0; 3], [2, base, five + 1, 0, 0]);
}

#[test]
fn a_subranges_start_value_does_not_survive_a_base_that_is_too_large() {
    for (places, expected) in [(2_047, Nodes(1)), (2_048, Large)] {
        let mut draft = draft();
        let base = ints(&mut draft, places);
        let shape = subrange_shape(&mut draft);
        subrange_from_5(&mut draft, shape, base);
        assert_eq!(last_type(&draft), expected);
    }
}

#[test]
fn a_subranges_own_shape_is_too_large_before_its_start_value_is_read() {
    // No array takes the start value.
    for (places, expected) in [(2_047, Answer::None), (2_048, Large)] {
        let mut draft = draft();
        let shape = array_shape(&mut draft, INT_SHAPE, places);
        subrange_from_5(&mut draft, shape, INLINE);
        assert_eq!(last_type(&draft), expected);
    }
}

#[test]
fn the_work_ends_at_a_subranges_base_that_is_too_large() {
    // Type 1, a block, holds type 2, a subrange over type 3, and type 4, which
    // isn't reached and so has its own default.
    let mut draft = draft();
    let block = draft.shape([14, 3, 0, 0, 0]);
    let subrange = subrange_shape(&mut draft);
    for link in [3, 5] {
        draft.variable(link, simple(link, None));
    }
    draft.type_of(block, [0; 3], [9, 0, 0, 0, 2]);
    subrange_from_5(&mut draft, subrange, 4);
    ints(&mut draft, 2_048);
    draft.type_of(subrange, [0; 3], [2, INLINE, 0, 0, 0]);
    let expected = [Nodes(1), Large, Large, Large, Nodes(1)];
    assert_eq!(types(&draft.answers()), expected);
}

#[test]
fn a_declared_type_goes_on_after_one_that_is_too_large() {
    let mut draft = draft();
    let large = array_shape(&mut draft, INT_SHAPE, 2_048);
    draft.type_of(large, [0, INT_TYPE, 0], [4, INLINE, 0, 0, 0]);
    let none = interface(&mut draft);
    let none = draft.undeclared(none);
    let shape = subrange_shape(&mut draft);
    subrange_from_5(&mut draft, shape, none);
    let expected = [Nodes(1), Large, Answer::None, Nodes(1)];
    assert_eq!(types(&draft.answers()), expected);
}

#[test]
fn a_type_that_is_too_large_stays_so_for_all_that_use_it() {
    // The aliases are resolved ahead of any question, the structure isn't.
    let mut draft = draft();
    let large = ints(&mut draft, 2_048);
    let alias = draft.initializer(simple(large, None));
    for _ in 0..2 {
        draft.type_of(INT_SHAPE, [large, 0, 0], [1, 0, alias + 1, 0, 0]);
    }
    let shape = structure_shape(&mut draft, &[INT_SHAPE + 1]);
    draft.undeclared(shape);
    let seven = draft.integer(7);
    draft.variable(large + 1, simple(large + 1, Some(seven)));
    let expected = [Nodes(1), Large, Large, Large, Large];
    assert_eq!(types(&draft.answers()), expected);
    // A stated value doesn't ask for the type's default.
    assert_eq!(variable(&draft), Nodes(1));
}

#[test]
fn a_variable_that_does_not_ask_for_its_type_is_not_too_large() {
    let mut draft = draft();
    let large = ints(&mut draft, 2_048);
    // A string has the type of its initializer, an in-out no value, and an
    // interface none either.
    draft.variable(large, [4, 0, 0, 0, 0, 0, 0, 0]);
    let plain = draft.initializer(simple(large, None));
    draft.push(VARIABLES, &[1, 2, large, plain]);
    draft.variable(large, [1, 0, 0, 0, 0, 0, 0, 0]);
    let answers = draft.answers();
    let empty = vec![[0, 8, 0, 0, 0, 0]];
    assert_eq!(answers.variables, [Some(empty), None, None]);
    assert!(answers.large.variables.is_empty());
}

#[test]
fn what_is_behind_a_tree_that_is_too_large_is_resolved_in_its_own_turn() {
    // Type 1, a block, holds type 2 and type 4, an alias of type 3, which is a
    // subrange from 5 over type 4. Reached through the block, the alias comes
    // ahead of the subrange and is 5; in its own turn it comes behind it.
    for (places, expected) in [
        (2, [Nodes(1), Nodes(5), Nodes(3), Nodes(1), Nodes(1)]),
        (2_048, [Nodes(1), Large, Large, Nodes(1), Answer::None]),
    ] {
        let mut draft = draft();
        let block = draft.shape([14, 3, 0, 0, 0]);
        let subrange = subrange_shape(&mut draft);
        for link in [3, 5] {
            draft.variable(link, simple(link, None));
        }
        draft.type_of(block, [0; 3], [9, 0, 0, 0, 2]);
        ints(&mut draft, places);
        subrange_from_5(&mut draft, subrange, 5);
        let alias = draft.initializer(simple(4, None));
        draft.type_of(subrange, [4, 0, 0], [1, 0, alias + 1, 0, 0]);
        assert_eq!(types(&draft.answers()), expected);
    }
}

#[test]
fn a_type_in_progress_above_one_that_is_too_large_is_so_too() {
    // Type 1 is an alias of 2, which is one of 3, which is too large.
    let mut draft = draft();
    for link in [3, 4] {
        let alias = draft.initializer(simple(link, None));
        draft.type_of(INT_SHAPE, [link, 0, 0], [1, 0, alias + 1, 0, 0]);
    }
    ints(&mut draft, 2_048);
    let expected = [Nodes(1), Large, Large, Large];
    assert_eq!(types(&draft.answers()), expected);
}

#[test]
fn a_type_in_progress_is_none_although_it_becomes_too_large() {
    // Type 1, a block, holds type 2, a subrange from 5 over type 1, and type 3.
    let mut draft = draft();
    let block = draft.shape([14, 3, 0, 0, 0]);
    let subrange = subrange_shape(&mut draft);
    for link in [3, 4] {
        draft.variable(link, simple(link, None));
    }
    let block = draft.type_of(block, [0; 3], [9, 0, 0, 0, 2]);
    subrange_from_5(&mut draft, subrange, block);
    ints(&mut draft, 2_048);
    let expected = [Nodes(1), Large, Nodes(1), Large];
    assert_eq!(types(&draft.answers()), expected);
}

#[test]
fn another_file_knows_nothing_of_types_that_were_too_large() {
    for (places, expected) in [(2_048, Large), (2_047, Nodes(2_048))] {
        let mut draft = draft();
        let shape = array_shape(&mut draft, INT_SHAPE, places);
        draft.type_of(shape, [0, INT_TYPE, 0], [4, INLINE, 0, 0, 0]);
        assert_eq!(last_type(&draft), expected);
    }
}

#[test]
fn the_program_prints_large() {
    let mut draft = draft();
    let array = ints(&mut draft, 2_048);
    draft.variable(array, simple(array, None));
    draft.variable(INT_TYPE, simple(INT_TYPE, None));
    let output = run_program(
        env!("CARGO_BIN_EXE_limited"),
        &[],
        &framed(&[draft.words(), vec![], draft.words()]),
    );
    let lines = "type 0 1\n0 1 0 0 0 0\ntype 1 large\nvar 0 large\nvar 1 1\n0 1 0 0 0 0\n\
                 done 0 left\ndone 1 completed 3 1\n0 1 0 0 0 0\n";
    let expected = format!("file 0\n{lines}file 1\nbad\nfile 2\n{lines}");
    assert!(output.status.success());
    assert_eq!(text(&output.stdout), expected);
    assert_eq!(text(&output.stderr), "");
}

#[test]
fn the_program_for_the_rust_as_it_is_refuses_to_run_limited() {
    let output = run_program(env!("CARGO_BIN_EXE_oracle"), &[], &[]);
    assert_eq!(output.status.code(), Some(1));
    assert!(text(&output.stderr).starts_with("oracle: built with the feature `limited`"));
}
