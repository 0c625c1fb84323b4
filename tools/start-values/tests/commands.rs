//! The command as people use it: what it prints and its exit status. The rows
//! of examples/carousel.rows were written by hand from document 01, those of
//! examples/carousel.memory and the bytes here from document 02.

use std::fs;
use std::path::{Path, PathBuf};
use std::process::{Command, Output};

fn example(name: &str) -> String {
    let path = Path::new(env!("CARGO_MANIFEST_DIR")).join("../../examples").join(name);
    path.to_str().expect("a path in UTF-8").to_string()
}

/// A file of this test's own, with these bytes.
fn written(name: &str, bytes: &[u8]) -> String {
    let path = PathBuf::from(env!("CARGO_TARGET_TMPDIR")).join(name);
    fs::write(&path, bytes).expect("the folder is there");
    path.to_str().expect("a path in UTF-8").to_string()
}

/// The carousel with other records.
fn changed(name: &str, records: &[(&str, &str)]) -> String {
    let mut text = fs::read_to_string(example("carousel.txt")).expect("it is there");
    for (from, to) in records {
        assert_eq!(text.matches(from).count(), 1);
        text = text.replace(from, to);
    }
    written(name, text.as_bytes())
}

/// The carousel at night: another scene, a lower lamp, and 4 in place of 40000.
fn night(name: &str) -> String {
    changed(name, &[("\n1 14 3 0 ", "\n1 14 1 0 "), ("\n1 0 70 0 0 ", "\n1 0 7 0 0 "), ("\n1 0 40000 0 0 ", "\n1 0 4 0 0 ")])
}

/// The carousel with a caption of as many characters as its place has.
fn short_caption(name: &str) -> String {
    changed(name, &[("\n8 0 0 6 0 ", "\n8 0 0 5 0 ")])
}

fn run(arguments: &[&str]) -> Output {
    Command::new(env!("CARGO_BIN_EXE_start-values")).args(arguments).output().expect("it starts")
}

/// Exit status, standard output and standard error.
fn said(arguments: &[&str]) -> (i32, String, String) {
    let output = run(arguments);
    let text = |bytes: Vec<u8>| String::from_utf8(bytes).expect("it prints UTF-8");
    (output.status.code().expect("it ends by itself"), text(output.stdout), text(output.stderr))
}

#[test]
fn rows_when_the_carousel_then_as_written_by_hand() {
    let (status, out, error) = said(&["rows", "--text", &example("carousel.txt"), "--names", &example("carousel.names")]);
    let rows = fs::read_to_string(example("carousel.rows")).expect("it is there");
    assert_eq!((status, error.as_str()), (0, ""));
    assert_eq!(out, rows);
}

#[test]
fn rows_when_no_names_then_numbers() {
    let (status, out, _) = said(&["rows", "--text", &example("carousel.txt")]);
    assert_eq!(status, 0);
    assert!(out.contains("7\t7.8[-1].5\tinteger\t70\tvalue\n"), "{out}");
    assert!(out.contains("7\t7.14\tenumerated\t3\tvalue\n"), "{out}");
}

#[test]
fn sheet_and_check_when_its_own_then_passes() {
    let sheet = written("carousel.sheet", b"");
    let file = example("carousel.txt");
    assert_eq!(said(&["sheet", "--text", &file, "-o", &sheet]), (0, String::new(), String::new()));
    assert_eq!(said(&["check", "--text", &file, &sheet]), (0, "passes\n".to_string(), String::new()));
    assert_eq!(run(&["sheet", "--text", &file]).stdout, fs::read(&sheet).expect("it was written"));
}

#[test]
fn check_when_another_files_sheet_then_refused() {
    let sheet = written("night.sheet", b"");
    assert_eq!(said(&["sheet", "--text", &night("checked.txt"), "-o", &sheet]).0, 0);
    let (status, out, error) = said(&["check", "--text", &example("carousel.txt"), &sheet]);
    assert_eq!((status, out.as_str()), (1, ""));
    assert_eq!(error, "refused 13: a line is not what the file gives\n");
    let short = written("short.sheet", &fs::read(&sheet).expect("it was written")[..7]);
    assert_eq!(said(&["check", "--text", &example("carousel.txt"), &short]).2, "refused 11: the sheet's words are not the three sections of this file\n");
}

#[test]
fn diff_when_the_scene_differs_then_side_by_side() {
    let names = example("carousel.names");
    let (status, out, error) = said(&["diff", "--text", &example("carousel.txt"), &night("differs.txt"), "--names", &names]);
    assert_eq!((status, error.as_str()), (1, ""));
    let lines = [
        "path\tfirst kind\tfirst value\tsecond kind\tsecond value",
        "carousel.scene\tenumerated\tday\tenumerated\tnight",
        "carousel.lamps[-1].level\tinteger\t70\tinteger\t7",
        "broken\t\tnone\tinteger\t4",
    ];
    assert_eq!(out, lines.join("\n") + "\n");
    assert_eq!(said(&["diff", "--text", &example("carousel.txt"), &example("carousel.txt")]), (0, String::new(), String::new()));
}

#[test]
fn diff_when_only_the_characters_cut_differ_then_shown() {
    let names = example("carousel.names");
    let (status, out, error) = said(&["diff", "--text", &example("carousel.txt"), &short_caption("short.txt"), "--names", &names]);
    assert_eq!((status, error.as_str()), (1, ""));
    let caption = |at: i32| format!("carousel.lamps[{at}].caption\tstring\t'L$'1$$2' (1 cut)\tstring\t'L$'1$$2'");
    let rows: Vec<String> = out.lines().skip(1).map(str::to_string).collect();
    assert_eq!(rows, [-1, 0, 1].map(caption));
}

#[test]
fn check_when_only_the_characters_cut_differ_then_refused() {
    let sheet = written("caption.sheet", b"");
    let short = short_caption("caption.txt");
    assert_eq!(said(&["sheet", "--text", &short, "-o", &sheet]).0, 0);
    assert_eq!(said(&["check", "--text", &short, &sheet]).1, "passes\n");
    let refused = "refused 13: a line is not what the file gives\n".to_string();
    assert_eq!(said(&["check", "--text", &example("carousel.txt"), &sheet]), (1, String::new(), refused));
}

/// The carousel's variable of this name or number, with these options.
fn memory<'a>(arguments: &[&'a str]) -> (i32, String, String) {
    let (file, names) = (example("carousel.txt"), example("carousel.names"));
    said(&[&["memory", "--text", &file, "--names", &names], arguments].concat())
}

/// A variable's bytes.
fn memory_bytes(variable: &str) -> Vec<u8> {
    let output = run(&["memory", "--text", &example("carousel.txt"), "--names", &example("carousel.names"), variable]);
    assert_eq!(output.status.code(), Some(0));
    output.stdout
}

#[test]
fn memory_when_the_carousel_then_as_written_by_hand() {
    let rows = fs::read_to_string(example("carousel.memory")).expect("it is there");
    assert_eq!(memory(&["--hex", "carousel"]), (0, rows.clone(), String::new()));
    assert_eq!(memory(&["--hex", "2"]), (0, rows.clone(), String::new()));
    let columns = rows.lines().skip(1).map(|row| row.split('\t').nth(1).expect("the bytes"));
    let bytes: Vec<u8> = columns.flat_map(|bytes| bytes.split(' ')).map(|byte| u8::from_str_radix(byte, 16).expect("a byte")).collect();
    assert_eq!(memory_bytes("carousel"), bytes);
    let out = written("carousel.bytes", b"");
    assert_eq!(memory(&["carousel", "-o", &out]), (0, String::new(), String::new()));
    assert_eq!(fs::read(&out).expect("it was written"), bytes);
}

#[test]
fn memory_when_leaves_of_each_kind_then_their_bytes() {
    assert_eq!(memory_bytes("offsets"), [5, 0, 7, 0, 7, 0, 0, 0]);
    assert_eq!(memory_bytes("grid"), [0xFC, 0xFF, 0xFC, 0xFF, 0xFC, 0xFF, 0, 0]);
    assert_eq!(memory_bytes("opened"), 1_767_312_000u32.to_le_bytes());
    assert_eq!(memory_bytes("alarm"), 1_767_323_045u32.to_le_bytes());
    assert_eq!(memory_bytes("closes"), 45_296_789u32.to_le_bytes());
    assert_eq!(memory_bytes("mask"), [0xFF]);
    assert_eq!(memory_bytes("target"), [0; 4]);
    let title = memory_bytes("title");
    let front = [254, 0, 7, 0, 0x47, 0, 0x72, 0, 0xF6, 0, 0xDF, 0, 0x65, 0, 0x20, 0, 0x22, 0];
    assert_eq!((title.len(), &title[..18]), (512, &front[..]));
    assert!(title[18..].iter().all(|byte| *byte == 0));
}

#[test]
fn memory_when_read_then_its_rows() {
    let mut bytes = memory_bytes("carousel");
    // night, a level of 100, a caption 'Hi'.
    bytes[0] = 0;
    bytes[3] = 100;
    bytes[7..14].copy_from_slice(&[2, 0, 0x48, 0x69, 0, 0, 0]);
    let path = written("read.bytes", &bytes);
    let (status, out, error) = memory(&["carousel", "--read", &path]);
    assert_eq!((status, error.as_str()), (0, ""));
    let rows: Vec<&str> = out.lines().collect();
    let first = [
        "path\tkind\tvalue",
        "carousel.scene\tenumerated\tnight",
        "carousel.lamps[-1].on\tboolean\tTRUE",
        "carousel.lamps[-1].level\tinteger\t100",
        "carousel.lamps[-1].caption\tstring\t'Hi'",
    ];
    assert_eq!(rows[..5], first);
    assert_eq!(rows[7], "carousel.lamps[0].caption\tstring\t'L$'1$$2'");
    assert_eq!(rows[11..], ["carousel.pause\tduration\tT#1s500ms", "carousel.drive.speed\treal\t1.5", "carousel.drive.position\tinteger\t-3"]);
    // A bit string is read as an integer, a reference to a variable as a null.
    let mask = written("mask.bytes", &[7]);
    assert_eq!(memory(&["mask", "--read", &mask]).1, "path\tkind\tvalue\nmask\tinteger\t7\n");
    let follows = written("follows.bytes", &[0; 4]);
    assert_eq!(memory(&["follows", "--read", &follows]).1, "path\tkind\tvalue\nfollows\tnull\tNULL\n");
}

#[test]
fn memory_when_refused_then_one_line_and_its_status() {
    let unheld = "refused 14: a node that its place cannot hold, or bytes that no tree is written as\n";
    for variable in ["sums", "follows"] {
        assert_eq!(memory(&[variable]), (1, String::new(), unheld.to_string()));
        assert_eq!(memory(&["--hex", variable]), (1, String::new(), unheld.to_string()));
    }
    let above = written("level.bytes", &[&memory_bytes("carousel")[..3], &[101], &memory_bytes("carousel")[4..]].concat());
    assert_eq!(memory(&["carousel", "--read", &above]), (1, String::new(), unheld.to_string()));
    let long = written("long.bytes", &[&memory_bytes("mask")[..], &[0]].concat());
    assert_eq!(memory(&["mask", "--read", &long]), (1, String::new(), unheld.to_string()));
    assert_eq!(memory(&["broken"]), (1, String::new(), "none\n".to_string()));
    assert_eq!(memory(&["many"]).2, "refused 8: a tree has more than 2,048 nodes\n");
    assert_eq!(memory(&["99"]).2, "refused 7: the asked variable is not in the file\n");
    assert_eq!(memory(&["night"]).2, "refused 7: the asked variable is not in the file\n");
    let strings = Path::new(env!("CARGO_MANIFEST_DIR")).join("../../vectors/memory/strings.txt");
    let strings = strings.to_str().expect("a path in UTF-8");
    assert_eq!(said(&["memory", "--text", strings, "3"]), (1, String::new(), "refused 15: a character too wide\n".to_string()));
    assert_eq!(memory(&["lamp"]), (2, String::new(), "lamp is not among the names\n".to_string()));
    assert_eq!(memory(&["mask", "--hex", "--read", &long]).2, "--hex and --read exclude each other\n");
}

#[test]
fn bad_input_when_any_then_one_line_and_its_status() {
    let missing = said(&["rows", "no such file"]);
    assert_eq!((missing.0, missing.1.as_str()), (2, ""));
    assert!(missing.2.starts_with("no such file: "), "{}", missing.2);
    let odd = written("odd.words", &[1, 0, 0, 0, 7]);
    assert_eq!(said(&["rows", &odd]), (1, String::new(), "refused 1: the words end before or after the last section does\n".to_string()));
    let two = written("two.words", &[2, 0, 0, 0].into_iter().chain([0; 8]).chain([0; 52]).collect::<Vec<u8>>());
    assert_eq!(said(&["sheet", &two]).2, "refused 2: a section has too many records, or Settings not one\n");
    let names = written("short.names", b"night\ndawn\n");
    let short = said(&["rows", "--text", &example("carousel.txt"), "--names", &names]);
    assert_eq!(short, (2, String::new(), "name 11 is not among the 2 lines of the names\n".to_string()));
    let text = written("wrong.txt", b"settings\n254\nlamps\n");
    assert_eq!(said(&["rows", "--text", &text]).0, 2);
}

#[test]
fn usage_when_misused_then_two() {
    for arguments in [&[][..], &["rows"], &["rows", "a", "b"], &["check", "a"], &["row", "a"], &["memory", "a"]] {
        let (status, out, error) = said(arguments);
        assert_eq!((status, out.as_str()), (2, ""));
        assert!(error.starts_with("usage: start-values sheet FILE"), "{error}");
    }
    assert_eq!(said(&["rows", "--name", "a"]).2, "there is no option --name\n");
    assert_eq!(said(&["rows", "a", "--names"]).2, "--names needs a file name\n");
}
