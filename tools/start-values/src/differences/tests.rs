use super::*;

fn row(path: &str, value: &str, state: &'static str) -> Row {
    let kind = if state == "value" { "integer" } else { "" };
    Row {
        variable: path.to_string(),
        path: path.to_string(),
        kind: kind.to_string(),
        value: value.to_string(),
        state,
    }
}

#[test]
fn differences_when_the_same_rows_then_none() {
    let rows = [row("a", "1", "value"), row("b", "", "none")];
    assert!(differences(&rows, &rows).is_empty());
}

#[test]
fn differences_when_a_value_a_state_or_a_path_then_side_by_side() {
    let first = [row("a", "1", "value"), row("b", "2", "value"), row("c", "3", "value")];
    let second = [row("b", "", "none"), row("a", "4", "value"), row("d", "5", "value")];
    let lines = differences(&first, &second);
    assert_eq!(
        lines,
        ["a\tinteger\t1\tinteger\t4", "b\tinteger\t2\t\tnone", "c\tinteger\t3\t\tnot there", "d\t\tnot there\tinteger\t5"]
    );
}
