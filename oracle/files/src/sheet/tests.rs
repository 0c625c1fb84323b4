use super::*;
use crate::text::assemble;

/// Document 01's printed example: one Bool type and one plain Simple variable.
const ONE: &str = "settings\n254\nshapes\n0 0 0 0 0\ntypes\n0 0 0 0 0 0 0 0 0 -1 0\nvariables\n0 4 1 0\ninitializers\n3 1 0 0 0 0 0 0\n";

fn one_lines() -> Lines {
    let node = [0, 0, 0, 0, 0, 0];
    Lines {
        types: vec![[&[0, 1], &node[..]].concat()],
        variables: vec![[&[0, 1], &node[..]].concat()],
        completed: vec![[&[0, 3, 1], &node[..]].concat()],
    }
}

fn one_sheet() -> Vec<u32> {
    let node = [0, 0, 0, 0, 0, 0];
    [&[1, 0, 0, 1], &node[..], &[1, 0, 1], &node[..], &[1, 0, 3, 1], &node[..]].concat()
}

#[test]
fn sheet_when_document_01_then_its_words() {
    let words = assemble(ONE).expect("it is a file");
    let file = File::open(&words).expect("it is a file");
    let ranks = lowest_ranks(&file).expect("there is no circle");
    assert_eq!(sheet(&one_lines(), &ranks), one_sheet());
    assert_eq!(check(&file, &one_sheet(), &one_lines()), 0);
}

#[test]
fn check_when_a_word_is_wrong_then_its_refusal() {
    let words = assemble(ONE).expect("it is a file");
    let file = File::open(&words).expect("it is a file");
    let refused = |at: usize, word: u32| {
        let mut sheet = one_sheet();
        sheet[at] = word;
        check(&file, &sheet, &one_lines())
    };
    assert_eq!(refused(0, 2), 11, "another count");
    assert_eq!(refused(1, 7), 0, "another rank");
    assert_eq!(refused(2, 3), 11, "no state");
    assert_eq!(refused(2, 1), 11, "nodes after a state 1");
    assert_eq!(refused(3, 0), 11, "no tree");
    assert_eq!(refused(4, 9), 13, "a name");
    assert_eq!(refused(5, 15), 11, "no kind");
    assert_eq!(refused(5, 14), 13, "a structure without fields");
    assert_eq!(refused(6, 1), 13, "a sign");
    assert_eq!(refused(21, 2), 13, "another kind of initializer");
    let longer = [&one_sheet()[..], &[0]].concat();
    assert_eq!(check(&file, &longer, &one_lines()), 11, "a word more");
    assert_eq!(check(&file, &one_sheet()[..27], &one_lines()), 11, "a word less");
}

/// A line of each section is a structure of two strings and a duration.
fn strings() -> Lines {
    let nodes = [[0, 14, 0, 3, 0, 0], [5, 8, 0, 0, 3, 5], [6, 8, 0, 2, 1, 2], [7, 4, 1, 8, 0, 1]].concat();
    Lines {
        types: vec![[&[0, 4], &nodes[..]].concat()],
        variables: vec![[&[0, 4], &nodes[..]].concat()],
        completed: vec![[&[0, 8, 4], &nodes[..]].concat()],
    }
}

#[test]
fn check_when_other_characters_are_cut_then_13() {
    let words = assemble(ONE).expect("it is a file");
    let file = File::open(&words).expect("it is a file");
    let right = sheet(&strings(), &[0]);
    assert_eq!(check(&file, &right, &strings()), 0);
    let places = last_words(&strings());
    assert_eq!(places, [15, 21, 42, 48, 70, 76]);
    for at in places {
        let mut sheet = right.clone();
        sheet[at] += 2;
        assert_eq!(check(&file, &sheet, &strings()), 13, "{at}");
        sheet[at] = right[at] % 2;
        assert_eq!(check(&file, &sheet, &strings()), 13, "{at}");
    }
}

#[test]
fn leave_out_cut_when_a_string_then_its_width_is_left() {
    let mut line = strings().variables.remove(0);
    leave_out_cut(&mut line[2..]);
    let left = [[0, 14, 0, 3, 0, 0], [5, 8, 0, 0, 3, 1], [6, 8, 0, 2, 1, 0], [7, 4, 1, 8, 0, 1]].concat();
    assert_eq!(line, [&[0, 4], &left[..]].concat());
}

/// Type 1 is an alias of type 0; where `base` is 2 type 0 is one of type 1, too.
fn aliases(base: u32) -> Vec<u32> {
    assemble(&format!(
        "settings\n254\nshapes\n0 0 0 0 0\ntypes\n0 {base} 0 0 0 0 0 0 0 -1 0\n0 1 0 0 0 0 0 0 0 -1 0\n"
    ))
    .expect("it is a file")
}

#[test]
fn lowest_ranks_when_an_alias_then_above_its_base() {
    let words = aliases(0);
    let file = File::open(&words).expect("it is a file");
    assert_eq!(uses(&file, 1), [0]);
    assert_eq!(lowest_ranks(&file), Some(vec![0, 1]));
}

#[test]
fn lowest_ranks_when_a_circle_then_none() {
    let words = aliases(2);
    let file = File::open(&words).expect("it is a file");
    assert_eq!(lowest_ranks(&file), None);
}

#[test]
fn check_when_ranks_are_equal_then_12() {
    let words = aliases(0);
    let file = File::open(&words).expect("it is a file");
    let line = vec![1, 0];
    let lines = Lines {
        types: vec![line.clone(), line],
        ..Lines::default()
    };
    assert_eq!(check(&file, &sheet(&lines, &[4, 4]), &lines), 12);
    assert_eq!(check(&file, &sheet(&lines, &[4, 5]), &lines), 0);
}

#[test]
fn uses_when_a_reference_names_what_it_refers_to_then_not_used() {
    let text = "settings\n254\nshapes\n0 0 0 0 0\n16 0 0 0 0\ntypes\n0 0 0 0 0 0 0 0 0 -1 0\n1 0 0 1 6 1 0 0 0 -1 0\n1 0 0 1 8 1 0 0 0 -1 0\n";
    let words = assemble(text).expect("it is a file");
    let file = File::open(&words).expect("it is a file");
    assert_eq!(uses(&file, 1), []);
    assert_eq!(uses(&file, 2), [0]);
}
