use super::*;

fn shown(node: Node) -> String {
    let characters: Vec<u32> = "A'B$C\n\u{e4}\u{1F3A0}\"".chars().map(|character| character as u32).collect();
    value(&characters, &Names::of("red\ngreen\nColour"), &node).expect("every name is listed")
}

#[test]
fn value_when_a_boolean_then_a_word() {
    assert_eq!(shown([0, 0, 0, 1, 0, 0]), "TRUE");
    assert_eq!(shown([0, 0, 0, 0, 0, 0]), "FALSE");
}

#[test]
fn value_when_an_integer_then_decimal_with_its_sign() {
    assert_eq!(shown([0, 1, 1, 128, 0, 0]), "-128");
    assert_eq!(shown([0, 1, 0, u32::MAX, u32::MAX, 0]), "18446744073709551615");
}

#[test]
fn value_when_a_bit_string_then_sixteen() {
    assert_eq!(shown([0, 2, 0, 255, 0, 0]), "16#FF");
    assert_eq!(shown([0, 2, 0, 0, 1, 0]), "16#100000000");
}

#[test]
fn value_when_a_real_then_with_a_point() {
    let shown_real = |value: f64| {
        let bits = value.to_bits();
        shown([0, 3, 0, bits as u32, (bits >> 32) as u32, 0])
    };
    assert_eq!(shown_real(3.5), "3.5");
    assert_eq!(shown_real(-0.0), "-0.0");
    assert_eq!(shown_real(16_777_216.0), "16777216.0");
    assert_eq!(shown_real(1e21), "1.0E21");
    assert_eq!(shown_real(2.5e-12), "2.5E-12");
}

#[test]
fn value_when_a_duration_then_its_parts() {
    assert_eq!(shown([0, 4, 0, 1500, 0, 0]), "T#1s500ms");
    assert_eq!(shown([0, 4, 0, 0, 0, 0]), "T#0ms");
    assert_eq!(shown([0, 4, 1, 86_400_000 + 60_000, 0, 1]), "LT#-1d1m");
}

#[test]
fn value_when_a_date_or_a_time_then_as_a_calendar_has_it() {
    // 2026-01-02 is day 20,455 since 1970-01-01, 2000-02-29 day 11,016.
    assert_eq!(shown([0, 6, 0, 20_455 * 86_400, 0, 0]), "D#2026-01-02");
    assert_eq!(shown([0, 6, 0, 11_016 * 86_400, 0, 1]), "LD#2000-02-29");
    assert_eq!(shown([0, 6, 0, 0, 0, 0]), "D#1970-01-01");
    assert_eq!(shown([0, 7, 0, 20_455 * 86_400 + 3 * 3600 + 4 * 60 + 5, 0, 0]), "DT#2026-01-02-03:04:05");
    assert_eq!(shown([0, 5, 0, 45_296_789, 0, 0]), "TOD#12:34:56.789");
    assert_eq!(shown([0, 5, 0, 45_296_000, 0, 1]), "LTOD#12:34:56");
}

#[test]
fn value_when_a_string_then_quoted() {
    assert_eq!(shown([0, 8, 0, 0, 0, 0]), "''");
    assert_eq!(shown([0, 8, 0, 0, 5, 0]), "'A$'B$$C'");
    assert_eq!(shown([0, 8, 0, 5, 2, 0]), "'$0A$E4'");
    assert_eq!(shown([0, 8, 0, 0, 3, 1]), "\"A'B\"");
    assert_eq!(shown([0, 8, 0, 5, 4, 1]), "\"$000A\u{e4}\u{1F3A0}$\"\"");
}

#[test]
fn value_when_characters_were_cut_then_how_many() {
    assert_eq!(shown([0, 8, 0, 0, 3, 2]), "'A$'B' (1 cut)");
    assert_eq!(shown([0, 8, 0, 0, 3, 7]), "\"A'B\" (3 cut)");
    assert_eq!(shown([0, 8, 0, 0, 0, 131_072]), "'' (65536 cut)");
}

#[test]
fn value_when_enumerated_then_its_name() {
    assert_eq!(shown([0, 9, 0, 2, 0, 0]), "green");
    assert_eq!(shown([0, 9, 0, 1, 3, 0]), "Colour#red");
}

#[test]
fn value_when_null_a_reference_or_an_expression_then_its_number() {
    assert_eq!(shown([0, 10, 0, 0, 0, 0]), "NULL");
    assert_eq!(shown([0, 11, 0, 4, 0, 0]), "reference in expression 4");
    assert_eq!(shown([0, 12, 0, 7, 0, 0]), "expression 7");
}

#[test]
fn value_when_a_name_is_not_listed_then_said() {
    let said = value(&[], &Names::of("red"), &[0, 9, 0, 2, 0, 0]);
    assert_eq!(said, Err("name 2 is not among the 1 lines of the names".to_string()));
    assert_eq!(value(&[], &Names::numbers(), &[0, 9, 0, 2, 0, 0]), Ok("2".to_string()));
}
