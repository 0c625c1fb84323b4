use super::*;

/// The literals 'ABCD' and 'CD' of four characters.
const WORDS: &str = "settings\n254\nconstants\n8 0 0 4 0\n8 0 2 2 0\ncharacters\n65\n66\n67\n68\n";

fn of_nodes(own: Node, named: Node) -> Option<Node> {
    let words = files::text::assemble(WORDS).expect("it is a file");
    node(&File::open(&words).expect("it is a file"), &own, &named)
}

#[test]
fn node_when_a_front_of_its_literal_then_the_rest_is_cut() {
    assert_eq!(of_nodes([7, 8, 0, 0, 3, 0], [7, 8, 0, 0, 1, 0]), Some([7, 8, 0, 0, 3, 2]));
    assert_eq!(of_nodes([7, 8, 0, 2, 1, 1], [7, 8, 0, 1, 1, 1]), Some([7, 8, 0, 2, 1, 3]));
    assert_eq!(of_nodes([0, 8, 0, 0, 0, 1], [0, 8, 0, 1, 1, 1]), Some([0, 8, 0, 0, 0, 5]));
    assert_eq!(of_nodes([0, 8, 0, 0, 0, 0], [0, 8, 0, 0, 0, 0]), Some([0, 8, 0, 0, 0, 0]));
}

#[test]
fn node_when_of_no_literal_then_as_it_is() {
    assert_eq!(of_nodes([7, 4, 1, 5, 0, 1], [7, 4, 1, 5, 0, 1]), Some([7, 4, 1, 5, 0, 1]));
}

#[test]
fn node_when_the_two_are_not_of_one_literal_then_none() {
    let own = [7, 8, 0, 0, 3, 0];
    for named in [
        [7, 8, 0, 1, 1, 0],
        [6, 8, 0, 0, 1, 0],
        [7, 8, 0, 0, 1, 1],
        [7, 8, 0, 0, 2, 0],
        [7, 8, 0, 0, 0, 0],
        [7, 1, 0, 0, 1, 0],
    ] {
        assert_eq!(of_nodes(own, named), None, "{named:?}");
    }
    assert_eq!(of_nodes([7, 8, 0, 2, 3, 0], [7, 8, 0, 1, 1, 0]), None, "more than the literal has");
    assert_eq!(of_nodes([7, 1, 0, 5, 0, 0], [7, 1, 0, 6, 0, 0]), None, "another integer");
}

#[test]
fn all_when_an_answer_is_missing_then_an_error() {
    let both = |own: Option<u32>, named: Option<u32>| all(&[Some(1), own], &[Some(1), named], |own, _| Some(*own));
    assert_eq!(both(None, None), Ok(vec![Some(1), None]));
    assert_eq!(both(Some(2), Some(2)), Ok(vec![Some(1), Some(2)]));
    let said = Err("answer 1 is another for literals of one character".to_string());
    assert_eq!(both(Some(2), None), said);
    assert_eq!(both(None, Some(2)), said);
}
