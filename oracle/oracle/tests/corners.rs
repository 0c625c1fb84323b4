//! Corners of the Rust, each with a small file.

mod common;

use common::*;
use files::layout::*;

/// Pushes shapes and types for an array of `places` places of the type
/// `element` and shape `shape`; gives the array's link.
fn array_of(draft: &mut Draft, shape: u32, element: u32, places: u32) -> u32 {
    let dimension = draft.push(DIMENSIONS, &[1, places]);
    let shape = draft.shape([12, shape, dimension, 1, 0]);
    draft.type_of(shape, [0, element, 0], [0; 5])
}

/// The value of an array of `places` INT with the entries 7, and then a
/// repeat of `count` of the entry that `inner` pushes and links to.
fn seven_and_repeat(
    places: u32,
    count: u32,
    inner: impl Fn(&mut Draft) -> u32,
) -> Option<Vec<answers::Node>> {
    let mut draft = Draft::new();
    let int = draft.plain(INT);
    let array = array_of(&mut draft, 0, int, places);
    let inner = inner(&mut draft);
    let seven = draft.integer(7);
    let first = draft.constant_entry(seven);
    draft.entry([6, 0, count, inner]);
    draft.variable(array, [9, array, 0, 0, first, 2, 0, 0]);
    draft.answers().variables.remove(0)
}

/// Pushes an entry of the integer 8 and gives its link.
fn eight(draft: &mut Draft) -> u32 {
    let number = draft.integer(8);
    draft.constant_entry(number) + 1
}

#[test]
fn a_repeat_of_none_behind_the_last_place_is_none_if_it_has_an_entry() {
    assert_eq!(seven_and_repeat(1, 0, eight), None);
    assert_eq!(seven_and_repeat(1, 0, |_| 0), Some(integers(&[7])));
}

#[test]
fn an_inner_count_is_held_against_the_places_left() {
    // 7, then 1(n(8)) over three places: n may be 2, though 3 is in all.
    let inner = |count| {
        move |draft: &mut Draft| {
            let eight = eight(draft);
            draft.entry([6, 0, count, eight]) + 1
        }
    };
    let value = seven_and_repeat(3, 1, inner(2));
    assert_eq!(value, Some(integers(&[7, 8, 8])));
    assert_eq!(seven_and_repeat(3, 0, inner(3)), None);
    // An outer count is held against all of them.
    assert_eq!(
        seven_and_repeat(3, 3, |draft| draft.entry([6, 0, 0, 0]) + 1),
        Some(integers(&[7, 0, 0]))
    );
}

#[test]
fn an_arrays_places_are_counted_by_its_elements_default() {
    let mut draft = Draft::new();
    let int = draft.plain(INT);
    let three = array_of(&mut draft, 0, int, 3);
    let initializer = draft.initializer(simple(three, None));
    let odd = draft.type_of(0, [0; 3], [1, 0, initializer + 1, 0, 0]);
    array_of(&mut draft, 0, odd, 2);
    let types = draft.answers().types;
    assert_eq!(types[2], Some(integers(&[0, 0, 0])));
    assert_eq!(types[3], Some(integers(&[0, 0, 0, 0, 0, 0])));
}

#[test]
fn fields_of_one_name_take_the_first_ones_type() {
    let mut draft = Draft::new();
    let (int, yes) = (draft.shape(INT), draft.shape(BOOL));
    draft.push(SHAPE_FIELDS, &[7, yes, 0]);
    draft.push(SHAPE_FIELDS, &[7, int, 0]);
    draft.plain([11, 0, 2, 0, 0]);
    let no = [7, 0, 0, 0, 0, 0];
    let expected = Some(vec![[0, 14, 0, 2, 0, 0], no, no]);
    assert_eq!(draft.answers().types, [expected]);
}

#[test]
fn an_expression_in_place_of_a_structure_takes_no_members() {
    let mut draft = Draft::new();
    let int = draft.shape(INT);
    draft.push(SHAPE_FIELDS, &[1, int, 0]);
    let inner = draft.shape([11, 0, 1, 0, 0]);
    draft.push(SHAPE_FIELDS, &[1, inner, 0]);
    let outer = draft.plain([11, 1, 1, 0, 0]);
    let five = draft.integer(5);
    let other = draft.push(EXPRESSIONS, &[6, 0]);
    draft.entry([0, 1, five, 0]);
    draft.entry([4, 1, other, 0]);
    draft.entry([3, 1, 0, 1]);
    draft.variable(outer, [8, outer, 0, 0, 1, 2, 0, 0]);
    draft.variable(outer, [8, outer, 0, 0, 1, 1, 0, 0]);
    let expression = Some(vec![[0, 14, 0, 1, 0, 0], [1, 12, 0, 0, 0, 0]]);
    assert_eq!(draft.answers().variables, [None, expression]);
}

#[test]
fn a_block_without_a_record_has_a_default_and_takes_no_members() {
    let mut draft = Draft::new();
    let int = draft.plain(INT);
    let five = draft.integer(5);
    let entry = draft.entry([0, 1, five, 0]);
    draft.variable(int, simple(int, Some(five)));
    let shape = draft.shape([14, 3, 0, 0, 0]);
    let block = draft.type_of(shape, [0; 3], [9, 0, 0, 0, 1]);
    draft.variable(block, [7, block, 0, 0, 0, 0, 0, 0]);
    draft.variable(block, [7, block, 0, 0, entry, 1, 0, 0]);
    let answers = draft.answers();
    let value = vec![[0, 14, 0, 1, 0, 0], [1, 1, 0, 5, 0, 0]];
    assert_eq!(answers.types[1], Some(value.clone()));
    assert_eq!(answers.variables[1..], [Some(value), None]);
}

#[test]
fn a_declared_structure_follows_its_elements() {
    let mut draft = Draft::new();
    let int = draft.shape(INT);
    draft.push(SHAPE_FIELDS, &[7, int, 0]);
    draft.push(SHAPE_FIELDS, &[8, int, 0]);
    let shape = draft.shape([11, 0, 2, 0, 0]);
    let initializer = draft.initializer([0; 8]);
    draft.push(ELEMENTS, &[8, initializer]);
    draft.push(ELEMENTS, &[9, initializer]);
    draft.type_of(shape, [0; 3], [5, 0, 0, 0, 1]);
    draft.type_of(shape, [0; 3], [5, 0, 0, 0, 2]);
    let one = Some(vec![[0, 14, 0, 1, 0, 0], [8, 1, 0, 0, 0, 0]]);
    assert_eq!(draft.answers().types, [one, None]);
}

#[test]
fn a_string_variable_ignores_its_type_and_an_element_its_own_length() {
    let mut draft = Draft::new();
    let int = draft.plain(INT);
    let text = draft.shape([9, 3, 0, 0, 0]);
    let abcd = draft.string("ABCD");
    let string = [4, 0, 0, abcd + 1, 0, 0, 4, 1];
    draft.variable(int, string);
    draft.variable(0, string);
    let initializer = draft.initializer(string);
    draft.push(SHAPE_FIELDS, &[7, text, 0]);
    draft.push(ELEMENTS, &[7, initializer]);
    let shape = draft.shape([11, 0, 1, 0, 0]);
    draft.type_of(shape, [0; 3], [5, 0, 0, 0, 1]);
    let answers = draft.answers();
    let own = Some(vec![[0, 8, 0, 0, 3, 1]]);
    assert_eq!(answers.variables, [own.clone(), own]);
    let shaped = Some(vec![[0, 14, 0, 1, 0, 0], [7, 8, 0, 0, 2, 0]]);
    assert_eq!(answers.types[1], shaped);
}

#[test]
fn an_initializer_of_kind_0_is_never_completed() {
    let mut draft = Draft::new();
    let int = draft.plain(INT);
    draft.variable(int, [0, int, 0, 0, 0, 0, 0, 0]);
    let answers = draft.answers();
    assert_eq!(answers.variables, [Some(vec![integer(0)])]);
    assert_eq!(answers.completed, [None]);
}

#[test]
fn a_reference_is_left_unless_it_knows_its_type() {
    for (referenced, is_completed) in [(0, false), (1, true)] {
        let mut draft = Draft::new();
        draft.plain(INT);
        let shape = draft.shape([16, 0, 0, 0, 0]);
        let link = draft.type_of(shape, [0, 0, referenced], [0; 5]);
        draft.variable(link, simple(link, None));
        draft.variable(link, [11, link, 0, 0, 0, 0, 0, 0]);
        draft.variable(link, [10, 0, 0, 0, 0, 0, 0, 0]);
        let null = [[0, 10, 0, 0, 0, 0]];
        let retyped = || is_completed.then(|| completed(10, &null)).flatten();
        assert_eq!(
            draft.answers().completed,
            [retyped(), retyped(), completed(10, &null)]
        );
    }
}

#[test]
fn enumerations_of_one_underlying_shape_are_taken_for_each_other() {
    let mut draft = Draft::new();
    draft.push(MEMBERS, &[5]);
    draft.push(MEMBERS, &[6]);
    let mine = draft.shape([10, 0, 1, 0, 0]);
    let other = draft.plain([10, 1, 1, 0, 0]);
    draft.push(SHAPE_FIELDS, &[7, mine, 0]);
    let initializer = draft.initializer([6, other, 0, 0, 0, 0, 0, 0]);
    draft.push(ELEMENTS, &[7, initializer]);
    let shape = draft.shape([11, 0, 1, 0, 0]);
    draft.type_of(shape, [0; 3], [5, 0, 0, 0, 1]);
    // The field starts at a name that its own shape doesn't list.
    let expected = Some(vec![[0, 14, 0, 1, 0, 0], [7, 9, 0, 6, 0, 0]]);
    assert_eq!(draft.answers().types[1], expected);
}

#[test]
fn a_start_value_is_not_converted_again() {
    let mut draft = Draft::new();
    let five = draft.integer(5);
    let (int, real) = (draft.shape(INT), draft.shape(REAL));
    let stated = draft.initializer(simple(0, Some(five)));
    let link = draft.type_of(int, [0; 3], [1, 0, stated + 1, 0, 0]);
    let alias = draft.initializer(simple(link, None));
    draft.type_of(real, [link, 0, 0], [1, 0, alias + 1, 0, 0]);
    let five = Some(vec![integer(5)]);
    assert_eq!(draft.answers().types, [five.clone(), five]);
}

#[test]
fn an_alias_of_a_named_subrange_drops_its_own_start_value() {
    let mut draft = Draft::new();
    let int = draft.shape(INT);
    let (least, greatest, four) = (draft.integer(1), draft.integer(9), draft.integer(4));
    let shape = draft.shape([13, int, least, greatest, 0]);
    let subrange = draft.type_of(shape, [0; 3], [2, INLINE, 0, 0, 0]);
    let alias = draft.initializer([2, subrange, 0, four + 1, 0, 0, 0, 0]);
    draft.type_of(shape, [subrange, 0, 0], [1, 0, alias + 1, 0, 0]);
    let one = Some(vec![integer(1)]);
    assert_eq!(draft.answers().types, [one.clone(), one]);
}

#[test]
fn a_subranges_start_value_wins_unless_its_base_is_unknown() {
    let mut draft = Draft::new();
    let int = draft.shape(INT);
    let interface = draft.plain([15, 2, 0, 0, 0]);
    let (least, greatest, four) = (draft.integer(1), draft.integer(9), draft.integer(4));
    let shape = draft.shape([13, int, least, greatest, 0]);
    for named in [interface, 0] {
        draft.type_of(shape, [0; 3], [2, named, four + 1, 0, 0]);
    }
    let types = draft.answers().types;
    assert_eq!(types, [None, Some(vec![integer(4)]), None]);
}
