use super::*;
use files::verdict::verdict;

fn all_accepted(seed: u64, count: u64, size: Size) {
    for number in 0..count {
        let words = file(seed, number, size);
        assert_eq!(
            verdict(&words),
            0,
            "file {number} of {seed}, family {}",
            family(number)
        );
    }
}

#[test]
fn file_when_small_then_accepted() {
    all_accepted(1, 4000, Size::Small);
}

#[test]
fn file_when_medium_then_accepted() {
    all_accepted(2, 400, Size::Medium);
}

#[test]
fn file_when_large_then_accepted() {
    all_accepted(3, 150, Size::Large);
}

#[test]
fn file_when_memory_then_accepted() {
    all_accepted(4, 3000, Size::Memory);
}

#[test]
fn file_when_same_seed_and_number_then_same_words() {
    for number in 0..200 {
        let words = file(7, number, Size::Small);
        assert_eq!(words, file(7, number, Size::Small));
        assert_ne!(words, file(8, number, Size::Small));
    }
}

#[test]
fn file_when_small_then_a_third_under_200_words() {
    let short = (0..3000)
        .filter(|number| file(5, *number, Size::Small).len() < 200)
        .count();
    assert!(short >= 1000, "{short} of 3000");
}

#[test]
fn exhibit_when_of_any_size_then_accepted() {
    for stations in [1, 5, 20, 50, 100] {
        assert_eq!(verdict(&exhibits::exhibit(stations)), 0, "{stations} stations");
    }
}
