//! What the stand-ins answer from a file's records, seen through the Rust.

mod common;

use common::*;
use files::layout::*;

/// A node of `kind` whose low word is `low`.
fn node(name: u32, kind: u32, low: u32) -> answers::Node {
    [name, kind, 0, low, 0, 0]
}

/// Pushes a type of a function block shape with declaration 8, an alias of
/// `base`, and the block record `block`.
fn late_block(draft: &mut Draft, shape: u32, base: u32, block: [u32; 2]) -> u32 {
    let record = [&[shape, base, 0, 0, 8, 0, 0, 0, 0][..], &block].concat();
    draft.push(TYPES, &record) + 1
}

#[test]
fn block_fields_are_looked_for_along_alias_bases() {
    let mut draft = Draft::new();
    let int = draft.plain(INT);
    let field = draft.push(BLOCK_FIELDS, &[7, int, 0]);
    let in_out = draft.push(BLOCK_FIELDS, &[8, int, 2]);
    let shape = draft.shape([14, 3, 0, 0, 0]);
    late_block(&mut draft, shape, 3, NO_BLOCK);
    late_block(&mut draft, shape, 4, NO_BLOCK);
    late_block(&mut draft, shape, 0, [field, in_out + 1 - field]);
    let answers = draft.answers();
    let block = Some(vec![node(0, 14, 1), node(7, 1, 0)]);
    assert_eq!(answers.types[1..], [block.clone(), block.clone(), block]);
    assert_eq!(answers.circles, 0);
}

#[test]
fn alias_bases_that_end_without_a_record_give_none() {
    let mut draft = Draft::new();
    let shape = draft.shape([14, 3, 0, 0, 0]);
    late_block(&mut draft, shape, 2, NO_BLOCK);
    late_block(&mut draft, shape, 0, NO_BLOCK);
    let answers = draft.answers();
    assert_eq!(answers.types, [None, None]);
    assert_eq!(answers.circles, 0);
}

#[test]
fn a_circle_of_alias_bases_gives_none_and_is_counted() {
    let mut draft = Draft::new();
    let shape = draft.shape([14, 3, 0, 0, 0]);
    late_block(&mut draft, shape, 2, NO_BLOCK);
    late_block(&mut draft, shape, 1, NO_BLOCK);
    let answers = draft.answers();
    assert_eq!(answers.types, [None, None]);
    assert_eq!(answers.circles, 2);
}

#[test]
fn a_circle_with_a_record_on_it_is_none_of_these() {
    let mut draft = Draft::new();
    let shape = draft.shape([14, 3, 0, 0, 0]);
    late_block(&mut draft, shape, 2, NO_BLOCK);
    late_block(&mut draft, shape, 1, [0, 0]);
    let answers = draft.answers();
    let empty = Some(vec![node(0, 14, 0)]);
    assert_eq!(answers.types, [empty.clone(), empty]);
    assert_eq!(answers.circles, 0);
}

#[test]
fn a_default_past_the_members_gives_none() {
    let mut draft = Draft::new();
    draft.push(MEMBERS, &[5]);
    draft.push(MEMBERS, &[6]);
    for default in 0..3 {
        draft.plain([10, 0, 2, default, 0]);
    }
    let types = draft.answers().types;
    assert_eq!(
        types,
        [Some(vec![node(0, 9, 5)]), Some(vec![node(0, 9, 6)]), None]
    );
}

#[test]
fn enumerated_values_keep_their_qualifier() {
    let mut draft = Draft::new();
    draft.push(MEMBERS, &[5]);
    let link = draft.plain([10, 0, 1, 0, 0]);
    let value = draft.entry([1, 0, 5, 9]);
    draft.variable(link, [5, link, 0, value + 1, 0, 0, 0, 0]);
    draft.variable(link, [6, link, 0, value + 1, 0, 0, 0, 0]);
    let answers = draft.answers();
    let tree = [[0, 9, 0, 5, 9, 0]];
    assert_eq!(
        answers.completed,
        [completed(5, &tree), completed(6, &tree)]
    );
}

#[test]
fn the_default_string_length_is_the_files() {
    for (settings, length) in [(1, 1), (254, 3), (65_535, 3)] {
        let mut draft = Draft::with_settings(settings);
        let link = draft.plain([9, 0, 1, 0, 0]);
        let abc = draft.string("ABC");
        draft.variable(link, simple(link, Some(abc)));
        let expected = Some(vec![[0, 8, 0, 0, length, 1]]);
        assert_eq!(draft.answers().variables, [expected]);
    }
}

#[test]
fn a_string_cut_to_nothing_has_no_first_character() {
    let mut draft = Draft::new();
    let link = draft.plain([9, 1, 0, 0, 0]);
    draft.string("xy");
    let abc = draft.string("ABC");
    draft.variable(link, simple(link, Some(abc)));
    assert_eq!(draft.answers().variables, [Some(vec![[0, 8, 0, 0, 0, 0]])]);
}

#[test]
fn a_length_that_is_no_integer_gives_none() {
    let mut draft = Draft::new();
    let link = draft.plain([9, 0, 0, 0, 0]);
    draft.variable(link, [4, link, 0, 0, 0, 0, u32::MAX, 0]);
    assert_eq!(draft.answers().variables, [None]);
}

#[test]
fn bits_of_a_real_are_kept() {
    let mut draft = Draft::new();
    let link = draft.plain(REAL);
    let number = draft.constant([3, 0, 1, 0xfff0_0000, 0]);
    draft.variable(link, simple(link, Some(number)));
    let expected = Some(vec![[0, 3, 0, 1, 0xfff0_0000, 0]]);
    assert_eq!(draft.answers().variables, [expected]);
}

#[test]
fn a_completed_subrange_holds_an_integer() {
    let mut draft = Draft::new();
    let int = draft.shape(INT);
    let (least, greatest) = (draft.integer(0), draft.integer(9));
    let shape = draft.shape([13, int, least, greatest, 0]);
    let bits = draft.sized(2, 5);
    let initializer = draft.initializer(simple(0, Some(bits)));
    let link = draft.type_of(shape, [0; 3], [1, 0, initializer + 1, 0, 0]);
    draft.variable(link, [2, INLINE, 0, 0, 0, 0, 0, 0]);
    let answers = draft.answers();
    assert_eq!(answers.variables, [Some(vec![node(0, 2, 5)])]);
    assert_eq!(answers.completed, [completed(2, &[integer(5)])]);
}

/// A file with a structure type of one field, name 7, of shape `field`; gives
/// the type's link.
fn structure_of(draft: &mut Draft, field: [u32; 5]) -> u32 {
    let field = draft.shape(field);
    let first = draft.push(SHAPE_FIELDS, &[7, field, 0]);
    draft.plain([11, first, 1, 0, 0])
}

/// The value and the completed initializer of a structure whose field is
/// given the expression that `expression` pushes.
fn expression_at(
    field: [u32; 5],
    expression: impl Fn(&mut Draft) -> u32,
) -> (answers::Node, answers::Node) {
    let mut draft = Draft::new();
    let link = structure_of(&mut draft, field);
    let expression = expression(&mut draft);
    let entry = draft.entry([4, 7, expression, 0]);
    draft.variable(link, [8, link, 0, 0, entry, 1, 0, 0]);
    let mut answers = draft.answers();
    let value = answers.variables.remove(0).expect("it has a value");
    let completed = answers.completed.remove(0).expect("it is completed");
    assert_eq!(completed.kind, 8);
    (value[1], completed.tree[1])
}

#[test]
fn an_expression_keeps_the_number_of_what_is_in_parentheses() {
    let (value, completed) = expression_at(INT, |draft| {
        draft.push(EXPRESSIONS, &[4, 0]);
        let other = draft.push(EXPRESSIONS, &[6, 0]);
        draft.push(EXPRESSIONS, &[2, other])
    });
    assert_eq!((value, completed), (node(7, 12, 1), node(7, 12, 1)));
}

#[test]
fn a_null_at_a_place_of_another_kind_is_completed_as_null() {
    let (value, completed) = expression_at(INT, |draft| draft.push(EXPRESSIONS, &[4, 0]));
    assert_eq!((value, completed), (node(7, 12, 0), node(7, 10, 0)));
}

#[test]
fn a_conversion_of_a_null_stays_an_expression() {
    let (value, completed) = expression_at(INT, |draft| {
        let null = draft.push(EXPRESSIONS, &[4, 0]);
        draft.push(EXPRESSIONS, &[3, null])
    });
    assert_eq!((value, completed), (node(7, 12, 1), node(7, 12, 1)));
}

#[test]
fn a_reference_below_the_top_is_completed_as_an_expression() {
    let mut draft = Draft::new();
    let int = draft.plain(INT);
    let shape = draft.shape([16, 0, 0, 0, 0]);
    let reference = draft.type_of(shape, [0, 0, int], [0; 5]);
    draft.push(EXPRESSIONS, &[6, 0]);
    let variable = draft.push(EXPRESSIONS, &[5, 0]);
    let initializer = [10, 0, 0, variable + 1, 0, 0, 0, 0];
    draft.variable(reference, initializer);
    let initializer = draft.initializer(initializer);
    let first = draft.push(SHAPE_FIELDS, &[7, shape, 0]);
    let structure = draft.shape([11, first, 1, 0, 0]);
    let element = draft.push(ELEMENTS, &[7, initializer]);
    let structure = draft.type_of(structure, [0; 3], [5, 0, 0, element, 1]);
    draft.variable(structure, [8, structure, 0, 0, 0, 0, 0, 0]);
    let answers = draft.answers();
    let top = vec![node(0, 11, 1)];
    let below = |kind| vec![node(0, 14, 1), node(7, kind, 1)];
    assert_eq!(answers.variables, [Some(top.clone()), Some(below(11))]);
    assert_eq!(
        answers.completed,
        [completed(10, &top), completed(8, &below(12))]
    );
}

#[test]
fn a_structure_without_fields_is_completed_though_it_looks_the_same() {
    let mut draft = Draft::new();
    let link = draft.plain([11, 0, 0, 0, 0]);
    draft.variable(link, [8, link, 0, 0, 0, 0, 0, 0]);
    draft.variable(link, [0, link, 0, 0, 0, 0, 0, 0]);
    draft.variable(0, [8, link, 0, 0, 0, 0, 0, 0]);
    let answers = draft.answers();
    let empty = vec![node(0, 14, 0)];
    assert_eq!(
        answers.variables,
        [Some(empty.clone()), Some(empty.clone()), None]
    );
    assert_eq!(answers.completed, [completed(8, &empty), None, None]);
}

#[test]
fn every_kind_of_initializer_that_states_its_value_is_completed() {
    let mut draft = Draft::new();
    let int = draft.plain(INT);
    let five = draft.integer(5);
    draft.variable(int, simple(int, Some(five)));
    draft.variable(int, [2, int, 0, five + 1, 0, 0, 0, 0]);
    draft.variable(int, [2, INLINE, 0, five + 1, 0, 0, 0, 0]);
    let five = [integer(5)];
    assert_eq!(
        draft.answers().completed,
        [
            completed(3, &five),
            completed(2, &five),
            completed(2, &five)
        ]
    );
}

#[test]
fn a_plain_initializer_becomes_the_kind_of_its_type() {
    let mut draft = Draft::new();
    let link = structure_of(&mut draft, INT);
    draft.variable(link, simple(link, None));
    draft.variable(link, [11, link, 0, 0, 0, 0, 0, 0]);
    let tree = [node(0, 14, 1), node(7, 1, 0)];
    assert_eq!(
        draft.answers().completed,
        [completed(8, &tree), completed(8, &tree)]
    );
}

#[test]
fn a_variable_without_a_name_leaves_its_block_without_a_value() {
    for (kind, name, has_value) in [(4, 1, true), (4, 0, false), (5, 0, true)] {
        let mut draft = Draft::new();
        let int = draft.plain(INT);
        let initializer = draft.initializer(simple(int, None));
        draft.push(VARIABLES, &[name, kind, int, initializer]);
        let shape = draft.shape([14, 3, 0, 0, 0]);
        draft.type_of(shape, [0; 3], [9, 0, 0, 0, 1]);
        assert_eq!(draft.answers().types[1].is_some(), has_value);
    }
}
