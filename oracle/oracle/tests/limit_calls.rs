//! The calls that the feature `limited` puts into resolver.rs. This runs without
//! the feature, so that a text that a call needs isn't lost unnoticed.

#[path = "../../analyzer/limit_calls.rs"]
mod limit_calls;

use limit_calls::with_limit;

const RESOLVER: &str = include_str!("../../ironplc/xform_resolve_initial_values/resolver.rs");

/// `source` without its calls, and how many there were.
fn without_calls(source: &str) -> (String, usize) {
    let mut parts = source.split(" access::limit::");
    let mut rest = parts.next().unwrap_or_default().to_string();
    let mut count = 0;
    for part in parts {
        let (_call, behind) = part.split_once("; ").expect("a call ends");
        rest.push_str(behind);
        count += 1;
    }
    (rest, count)
}

#[test]
fn nothing_but_calls_is_put_in() {
    let limited = with_limit(RESOLVER).expect("every text is there once");
    assert_eq!(without_calls(&limited), (RESOLVER.to_string(), 14));
}

#[test]
fn a_text_that_is_not_there_once_is_an_error() {
    let text = "self.resolving.remove(&id);";
    for (changed, count) in [(String::new(), 0), (text.repeat(2), 2)] {
        let error = with_limit(&RESOLVER.replace(text, &changed)).expect_err("it isn't there once");
        assert_eq!(
            error,
            format!("{text:?} stands {count} times in resolver.rs")
        );
    }
}
