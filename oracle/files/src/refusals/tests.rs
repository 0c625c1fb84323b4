use super::*;
use std::collections::HashMap;

#[test]
fn cases_when_judged_then_expectations_hold() {
    assert_eq!(disagreement(&cases()), None);
}

#[test]
fn cases_when_counted_then_eight_of_each_verdict() {
    let cases = cases();
    for verdict in 0..=6 {
        let count = cases.iter().filter(|case| case.expected == verdict).count();
        assert!(count >= 8, "verdict {verdict}: {count}");
    }
}

#[test]
fn cases_when_compared_then_all_differ() {
    let cases = cases();
    let mut by_words = HashMap::new();
    let mut by_cause = HashMap::new();
    for case in &cases {
        let same_words = by_words.insert(&case.words, &case.cause);
        assert_eq!(same_words, None, "the same words as {}", case.cause);
        let same_cause = by_cause.insert(&case.cause, &case.words);
        assert!(same_cause.is_none(), "twice: {}", case.cause);
    }
}

#[test]
fn disagreement_when_expectation_wrong_then_case_named() {
    let case = Case {
        expected: 2,
        words: vec![],
        cause: "no words at all".to_string(),
    };
    let message = disagreement(&[case]).unwrap();
    assert_eq!(message, "case 0 (no words at all): expected 2, given 1");
}

#[test]
fn binary_when_read_as_frames_then_words_and_verdicts() {
    let cases = &cases()[..5];
    let bytes = binary(cases).unwrap();
    let mut input = bytes.as_slice();
    for case in cases {
        assert_eq!(
            frames::read(&mut input).unwrap().as_ref(),
            Some(&case.words)
        );
        assert_eq!(input[..4], case.expected.to_le_bytes());
        input = &input[4..];
    }
    assert!(input.is_empty());
}

#[test]
fn text_when_cases_then_a_line_each() {
    let cases = cases();
    let text = text(&cases);
    assert_eq!(text.lines().count(), cases.len());
    assert_eq!(
        text.lines().nth(1),
        Some("1 1 0 one setting and no other records: no words at all")
    );
}
