use super::*;
use files::verdict::verdict;

fn directed_and_random() -> Vec<Pairs> {
    let drawn = (0..200).map(|number| Pairs::random(1, number));
    Pairs::directed().into_iter().chain(drawn).collect()
}

#[test]
fn files_and_questions_are_accepted() {
    for pairs in directed_and_random() {
        assert_eq!(verdict(&pairs.words()), 0);
        for question in pairs.questions() {
            assert_eq!(verdict(&question), 0);
        }
    }
}

#[test]
fn questions_ask_for_each_pair() {
    for pairs in directed_and_random() {
        let asked: usize = pairs
            .questions()
            .iter()
            .map(|words| File::open(words).expect("it is accepted").count(VARIABLES))
            .sum();
        assert_eq!(asked, pairs.all().len());
    }
}

/// The sizes of the directed integers.
fn directed_sizes() -> Vec<u64> {
    Pairs::directed()[0].records.sections[CONSTANTS]
        .iter()
        .filter(|constant| constant[0] == 1)
        .map(|constant| u64::from(constant[3]) << 32 | u64::from(constant[2]))
        .collect()
}

#[test]
fn some_directed_integers_round_otherwise_through_lreal() {
    let other = |size: &&u64| **size as f32 != (**size as f64) as f32;
    let sizes = directed_sizes();
    let up = sizes
        .iter()
        .filter(other)
        .filter(|s| **s as f32 > (**s as f64) as f32);
    let down = sizes
        .iter()
        .filter(other)
        .filter(|s| (**s as f32) < (**s as f64) as f32);
    assert!(up.count() > 0 && down.count() > 0);
}

#[test]
fn kinds_and_widths_are_all_there() {
    let pairs = &Pairs::directed()[0];
    let shapes = &pairs.records.sections[SHAPES];
    for kind in 0..=16 {
        assert!(shapes.iter().any(|shape| shape[0] == kind), "kind {kind}");
    }
    for kind in 1..=8 {
        for bits in [8, 16, 32, 64] {
            assert!(shapes.iter().any(|shape| shape[..2] == [kind, bits]));
        }
    }
    let constants = &pairs.records.sections[CONSTANTS];
    for kind in 0..=8 {
        assert!(constants.iter().any(|constant| constant[0] == kind));
    }
}
