use super::*;

/// The function, line and pattern of each arm in `source`.
fn found(source: &str) -> Vec<(String, usize, String)> {
    let arms = find(source);
    arms.into_iter()
        .map(|arm| (arm.function, arm.line, arm.pattern))
        .collect()
}

fn arm(function: &str, line: usize, pattern: &str) -> (String, usize, String) {
    (function.to_string(), line, pattern.to_string())
}

fn counted(source: &str) -> String {
    with_calls(source, &find(source), |place| format!("c({place})"))
}

#[test]
fn blocks_and_expressions_get_a_call() {
    let source = "fn f() { match x { A => 1, B => { 2 } C => {} _ => 3 } }";
    let expected = "fn f() { match x { A => { c(0); 1 }, B => { c(1); 2 } C => { c(2);} \
                    _ => { c(3); 3 } } }";
    assert_eq!(counted(source), expected);
}

#[test]
fn matches_inside_arms_are_found() {
    let source = "fn f() { match x { A => match y { B => 1, _ => 2 }.z(), C => 3 } }";
    let expected = "fn f() { match x { A => { c(0); match y { B => { c(1); 1 }, \
                    _ => { c(2); 2 } }.z() }, C => { c(3); 3 } } }";
    assert_eq!(counted(source), expected);
}

#[test]
fn patterns_with_brackets_guards_and_alternatives_are_one_arm() {
    let source =
        "fn f() {\n match x {\n  A {\n   b, ..\n  }\n  | C(_) if matches!(y, D => {}) => 1,\n }\n}";
    assert_eq!(found(source), [arm("f", 3, "A {")]);
}

#[test]
fn text_that_looks_like_an_arm_is_not_one() {
    let source = "fn f<'a>() { // match x { A => 1 }\n\
                  let s = \"match x { A => 1 }\"; /* match { => } */\n\
                  let r = r#\"match \" { => \"#; let c = '{'; let d = '\\''; matches!(c, 'a')\n}";
    assert_eq!(found(source), []);
}

#[test]
fn the_function_is_the_last_one_that_was_opened() {
    let source = "fn f() {}\nfn g() { match x { A => 1 } }\n";
    assert_eq!(found(source), [arm("g", 2, "A")]);
}

#[test]
fn a_guard_and_a_comment_before_the_pattern_are_kept_apart() {
    let source = "fn f() {\n match x {\n  // why\n  A if b =>\n  {\n   1\n  }\n }\n}";
    assert_eq!(found(source), [arm("f", 4, "A if b")]);
}
