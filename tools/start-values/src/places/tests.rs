use super::*;

#[test]
fn indices_when_one_dimension_then_from_its_lower_bound() {
    let bounds = [vec![[-1, 1]]];
    let written: Vec<String> = (0..3).map(|number| indices(&bounds, 3, number)).collect();
    assert_eq!(written, ["[-1]", "[0]", "[1]"]);
}

#[test]
fn indices_when_two_dimensions_then_the_last_runs_first() {
    let bounds = [vec![[1, 2], [5, 7]]];
    let written: Vec<String> = (0..6).map(|number| indices(&bounds, 6, number)).collect();
    assert_eq!(written, ["[1,5]", "[1,6]", "[1,7]", "[2,5]", "[2,6]", "[2,7]"]);
}

#[test]
fn indices_when_an_array_in_an_array_then_a_bracket_each() {
    let bounds = [vec![[0, 1]], vec![[1, 2]]];
    let written: Vec<String> = (0..4).map(|number| indices(&bounds, 4, number)).collect();
    assert_eq!(written, ["[0][1]", "[0][2]", "[1][1]", "[1][2]"]);
}

#[test]
fn indices_when_the_whole_range_of_bounds_then_no_overflow() {
    let bounds = [vec![[i32::MIN, i32::MAX]], vec![[i32::MIN, i32::MAX]], vec![[0, 0]]];
    assert_eq!(indices(&bounds, 3, 2), "[part 2]");
}
