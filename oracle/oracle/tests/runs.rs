//! The program `oracle`, run on framed files.

mod common;

use std::process::{Command, Output};

use common::*;
use files::layout::*;

/// What the program gives for `input`.
fn run(input: &[u8]) -> Output {
    run_program(env!("CARGO_BIN_EXE_oracle"), &[], input)
}

/// One Bool type and one plain variable.
fn small(settings: u32) -> Vec<u32> {
    let mut draft = Draft::with_settings(settings);
    let link = draft.plain(BOOL);
    draft.variable(link, simple(link, None));
    draft.words()
}

const SMALL: &str = "type 0 1\n0 0 0 0 0 0\nvar 0 1\n0 0 0 0 0 0\n\
                     done 0 completed 3 1\n0 0 0 0 0 0\n";

/// An array type of `places` places of an array of `inner` places of INT.
fn nested(places: u32, inner: u32) -> Vec<u32> {
    let mut draft = Draft::new();
    let int = draft.plain(INT);
    draft.push(DIMENSIONS, &[1, inner]);
    draft.push(DIMENSIONS, &[1, places]);
    let row = draft.shape([12, 0, 0, 1, 0]);
    let rows = draft.shape([12, row, 1, 1, 0]);
    let row = draft.type_of(row, [0, int, 0], [0; 5]);
    draft.type_of(rows, [0, row, 0], [0; 5]);
    draft.words()
}

#[test]
fn no_files_print_nothing() {
    let output = run(&[]);
    assert!(output.status.success());
    assert_eq!(text(&output.stdout), "");
    assert_eq!(text(&output.stderr), "");
}

#[test]
fn files_that_cannot_be_answered_do_not_end_the_run() {
    let files = [
        vec![],
        small(254),
        small(2),
        // More nodes than an answer may have.
        nested(65_536, 4),
        // More than memory holds.
        nested(65_536, 65_536),
        small(1),
    ];
    let output = run(&framed(&files));
    let expected = format!(
        "file 0\nbad\nfile 1\n{SMALL}file 2\nskip settings\nfile 3\nhuge\nfile 4\nhuge\n\
         file 5\n{SMALL}"
    );
    assert!(output.status.success());
    assert_eq!(text(&output.stdout), expected);
    assert_eq!(text(&output.stderr), "");
}

#[test]
fn a_file_that_is_cut_short_is_not_printed() {
    let whole = framed(&[small(254)]);
    for length in 1..whole.len() {
        let output = run(&[&whole, &whole[..length]].concat());
        assert_eq!(output.status.code(), Some(1));
        assert_eq!(text(&output.stdout), format!("file 0\n{SMALL}"));
        assert!(text(&output.stderr).starts_with("oracle: file 1: "));
    }
}

#[test]
fn a_count_past_the_end_is_an_error() {
    let output = run(&u32::MAX.to_le_bytes());
    assert_eq!(output.status.code(), Some(1));
    assert_eq!(text(&output.stdout), "");
    assert!(text(&output.stderr).contains("4294967295 words"));
}

#[test]
fn circles_are_reported_at_the_end() {
    let mut draft = Draft::new();
    let shape = draft.shape([14, 3, 0, 0, 0]);
    draft.type_of(shape, [1, 0, 0], [8, 0, 0, 0, 0]);
    let output = run(&framed(&[draft.words(), small(254)]));
    assert_eq!(
        text(&output.stdout),
        format!("file 0\ntype 0 none\nfile 1\n{SMALL}")
    );
    assert!(text(&output.stderr).ends_with("answered with none: 1\n"));
}

#[test]
fn cut_characters_are_counted_where_asked_for() {
    let mut draft = Draft::new();
    let link = draft.plain([9, 4, 0, 0, 0]);
    let abcd = draft.string("ABCD");
    draft.variable(link, simple(link, Some(abcd)));
    let files = framed(&[draft.words(), vec![], small(254)]);
    let lines = |last: u32| {
        format!(
            "file 0\ntype 0 1\n0 8 0 0 0 0\nvar 0 1\n0 8 0 0 3 {last}\n\
             done 0 completed 3 1\n0 8 0 0 3 {last}\nfile 1\nbad\nfile 2\n{SMALL}"
        )
    };
    let counted = run_program(env!("CARGO_BIN_EXE_oracle"), &["--cut"], &files);
    assert_eq!(text(&counted.stdout), lines(2));
    assert_eq!(text(&run(&files).stdout), lines(0));
}

#[test]
fn an_argument_is_refused() {
    let output = Command::new(env!("CARGO_BIN_EXE_oracle"))
        .arg("x")
        .output()
        .expect("the program starts");
    assert_eq!(output.status.code(), Some(2));
    assert!(text(&output.stderr).starts_with("usage: "));
}
