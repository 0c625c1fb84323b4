//! The characters cut from the strings of files built by hand, and of
//! generated files by another way to count them.

mod common;

use std::collections::BTreeSet;

use answers::{Answers, Node, Tree};
use common::*;
use files::layout::*;
use files::records::Records;
use files::text::assemble;
use generate::Size;
use oracle::cut::counted;
use oracle::outcome::{outcome, Outcome};

const STRING: [u32; 5] = [9, 0, 0, 0, 0];

/// A narrow string of so many characters.
fn narrow(length: u32) -> [u32; 5] {
    [9, length + 1, 0, 0, 0]
}

fn wide(length: u32) -> [u32; 5] {
    [9, length + 1, 1, 0, 0]
}

fn with_cut(draft: &Draft) -> Answers {
    counted(&draft.words(), &draft.answers()).expect("the Rust answers alike")
}

/// The node of a string that begins the section Characters.
fn string(kept: u32, last: u32) -> Node {
    [0, 8, 0, 0, kept, last]
}

#[test]
fn string_3_has_one_cut() {
    let text = include_str!("../../../vectors/examples/string_3.txt");
    let words = assemble(text).expect("it is a file");
    let Outcome::Answered(own) = outcome(&words) else {
        panic!("it is answered");
    };
    let answers = counted(&words, &own).expect("the Rust answers alike");
    assert_eq!(answers.types, [Some(vec![string(0, 0)]), Some(vec![string(3, 2)])]);
    assert_eq!(answers.variables, [Some(vec![string(3, 2)])]);
    assert_eq!(answers.completed, [completed(4, &[string(3, 2)])]);
}

#[test]
fn a_wide_string_has_an_odd_last_word() {
    let mut draft = Draft::new();
    let two = draft.plain(wide(2));
    let five = draft.plain(wide(5));
    let abcde = draft.string("ABCDE");
    draft.variable(two, simple(two, Some(abcde)));
    draft.variable(five, simple(five, Some(abcde)));
    let variables = with_cut(&draft).variables;
    assert_eq!(variables, [Some(vec![string(2, 7)]), Some(vec![string(5, 1)])]);
}

#[test]
fn a_place_for_no_characters_cuts_all() {
    let mut draft = Draft::new();
    let none = draft.plain(narrow(0));
    let one = draft.plain(narrow(1));
    let empty = draft.string("");
    let abc = draft.string("ABC");
    draft.variable(none, simple(none, Some(abc)));
    draft.variable(one, simple(one, Some(abc)));
    draft.variable(none, simple(none, Some(empty)));
    draft.variable(one, [4, one, 0, abc + 1, 0, 0, 1, 1]);
    let strings = [string(0, 6), string(1, 4), string(0, 0), string(0, 7)];
    assert_eq!(with_cut(&draft).variables, strings.map(|node| Some(vec![node])));
}

#[test]
fn a_literal_of_65536_characters_is_cut_in_the_longest_place() {
    for settings in [1, 254, 65_535] {
        let mut draft = Draft::with_settings(settings);
        let longest = draft.plain(narrow(65_535));
        let without_length = draft.plain(STRING);
        let longer = draft.plain(narrow(65_536));
        let literal = draft.string(&"A".repeat(65_536));
        for link in [longest, without_length, longer] {
            draft.variable(link, simple(link, Some(literal)));
        }
        let default = string(settings, 2 * (65_536 - settings));
        let variables = with_cut(&draft).variables;
        assert_eq!(variables, [Some(vec![string(65_535, 2)]), Some(vec![default]), None]);
    }
}

/// A type of STRING[3] that starts with 'ABCDE'; gives its link.
fn caption(draft: &mut Draft) -> u32 {
    let shape = draft.shape(narrow(3));
    let abcde = draft.string("ABCDE");
    draft.type_of(shape, [0; 3], [3, 0, abcde + 1, 0, 0])
}

#[test]
fn an_array_copies_what_its_elements_default_has() {
    let mut draft = Draft::new();
    let caption = caption(&mut draft);
    let dimension = draft.push(DIMENSIONS, &[1, 3]);
    let shape = draft.shape([12, 0, dimension, 1, 0]);
    let array = draft.type_of(shape, [0, caption, 0], [0; 5]);
    let abcdefg = draft.string("ABCDEFG");
    let entry = draft.constant_entry(abcdefg);
    draft.variable(array, [9, array, 0, 0, entry, 1, 0, 0]);
    let head = [0, 13, 0, 3, 0, 0];
    let answers = with_cut(&draft);
    assert_eq!(answers.types[1], Some(vec![head, string(3, 4), string(3, 4), string(3, 4)]));
    // The literal 'ABCDEFG' stands behind 'ABCDE'.
    let tree = [head, [0, 8, 0, 5, 3, 8], string(3, 4), string(3, 4)];
    assert_eq!(answers.variables, [Some(tree.to_vec())]);
    assert_eq!(answers.completed, [completed(9, &tree)]);
}

#[test]
fn a_completed_structure_has_what_its_default_has() {
    let mut draft = Draft::new();
    let caption = caption(&mut draft);
    let field = draft.push(SHAPE_FIELDS, &[7, 0, 1]);
    let shape = draft.shape([11, field, 1, 0, 0]);
    let bare = draft.initializer(simple(caption, None));
    let element = draft.push(ELEMENTS, &[7, bare]);
    let structure = draft.type_of(shape, [0; 3], [5, 0, 0, element, 1]);
    draft.variable(structure, [8, structure, 0, 0, 0, 0, 0, 0]);
    let tree = [[0, 14, 0, 1, 0, 0], [7, 8, 0, 0, 3, 4]];
    let answers = with_cut(&draft);
    assert_eq!(answers.variables, [Some(tree.to_vec())]);
    assert_eq!(answers.completed, [completed(8, &tree)]);
}

/// A field's default comes from its type only where that is a string of the
/// same length: a place for no characters must not become another's.
#[test]
fn a_place_for_no_characters_stays_another() {
    let mut draft = Draft::new();
    let none = draft.shape(narrow(0));
    let shape = draft.shape(narrow(1));
    let abc = draft.string("ABC");
    let one = draft.type_of(shape, [0; 3], [3, 0, abc + 1, 0, 0]);
    let field = draft.push(SHAPE_FIELDS, &[7, none, 1]);
    let shape = draft.shape([11, field, 1, 0, 0]);
    let bare = draft.initializer(simple(one, None));
    let element = draft.push(ELEMENTS, &[7, bare]);
    draft.type_of(shape, [0; 3], [5, 0, 0, element, 1]);
    let types = with_cut(&draft).types;
    assert_eq!(types[1], Some(vec![[0, 14, 0, 1, 0, 0], [7, 8, 0, 0, 0, 0]]));
}

/// The length words of all string places: 1 + length, 0 for none.
fn length_words(records: &mut Records) -> impl Iterator<Item = &mut u32> {
    let of_kind = |kind: u32| move |record: &&mut Vec<u32>| record[0] == kind;
    let (front, back) = records.sections.split_at_mut(INITIALIZERS);
    let shapes = front[SHAPES].iter_mut().filter(of_kind(9)).map(|shape| &mut shape[1]);
    let initializers = back[0].iter_mut().filter(of_kind(4));
    shapes.chain(initializers.map(|initializer| &mut initializer[6]))
}

/// The words of a file whose string places have room for every literal.
/// Lengths that are others stay others.
fn with_room(words: &[u32]) -> Vec<u32> {
    let mut records = Records::of(&File::open(words).expect("it is a file"));
    let literals = records.sections[CONSTANTS].iter().filter(|constant| constant[0] == 8);
    let longest = literals.map(|constant| constant[3]).max().unwrap_or(0);
    let words: BTreeSet<u32> = length_words(&mut records).map(|word| *word).collect();
    let lengths: BTreeSet<u32> = words.into_iter().filter(|word| (1..=65_536).contains(word)).collect();
    for word in length_words(&mut records).filter(|word| lengths.contains(word)) {
        *word = 65_536 - lengths.range(*word + 1..).count() as u32;
    }
    records.sections[SETTINGS][0][0] = 65_535;
    assert!(longest + lengths.len() as u32 <= 65_535, "a literal is too long");
    records.words()
}

/// All nodes of all answers.
fn nodes(answers: &Answers) -> Vec<Node> {
    let trees = answers.types.iter().chain(&answers.variables).flatten();
    let completed = answers.completed.iter().flatten().map(|completed| &completed.tree);
    trees.chain(completed).flat_map(|tree: &Tree| tree.iter().copied()).collect()
}

/// How many strings are cut, once each node is the one with room but for the
/// characters cut.
fn compared(own: &Answers, counted: &Answers, room: &Answers) -> u32 {
    let [own, counted, room] = [own, counted, room].map(nodes);
    assert_eq!([counted.len(), room.len()], [own.len(); 2]);
    let mut cut = 0;
    for (own, (counted, room)) in own.iter().zip(counted.iter().zip(&room)) {
        let [name, kind, sign, first, kept, last] = *own;
        let more = if kind == 8 { room[4] - kept } else { 0 };
        let begin = if kind == 8 && kept == 0 { 0 } else { room[3] };
        assert_eq!([name, kind, sign, first, kept + more, last], [room[0], room[1], room[2], begin, room[4], room[5]]);
        assert_eq!(*counted, [name, kind, sign, first, kept, last + 2 * more]);
        cut += u32::from(more > 0);
    }
    cut
}

#[test]
fn the_same_are_cut_that_places_with_room_keep() {
    let mut cut = 0;
    for number in 0..4000 {
        let words = generate::file(17, number, Size::Small);
        if let (Outcome::Answered(own), Outcome::Answered(room)) = (outcome(&words), outcome(&with_room(&words))) {
            let counted = counted(&words, &own).expect("the Rust answers alike");
            cut += compared(&own, &counted, &room);
        }
    }
    assert!(cut > 1000, "{cut} strings are cut");
}
