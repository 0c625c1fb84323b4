//! Refusal 6: an array shape has more than 65,536 elements.

use super::case::{Base, Case};
use crate::layout::*;

pub fn cases() -> Vec<Case> {
    let sizes = SIZES
        .iter()
        .map(|(expected, bounds, what)| sized(*expected, bounds, what));
    let doubled = [many(0, 16), many(6, 17), many(6, 32), many(6, 64)];
    sizes.chain(doubled).chain(several_shapes()).collect()
}

const LEAST: i32 = i32::MIN;
const GREATEST: i32 = i32::MAX;

type Size = (u32, &'static [(i32, i32)], &'static str);

/// The dimensions of one array shape.
const SIZES: &[Size] = &[
    (0, &[(1, 1)], "1"),
    (0, &[(1, 65_536)], "65536 from 1"),
    (6, &[(1, 65_537)], "65537 from 1"),
    (0, &[(0, 65_535)], "65536 from 0"),
    (6, &[(0, 65_536)], "65537 from 0"),
    (0, &[(-32_768, 32_767)], "65536 from -32768"),
    (6, &[(-32_769, 32_767)], "65537 from -32769"),
    (6, &[(-32_768, 32_768)], "65537 from -32768"),
    (0, &[(-65_536, -1)], "65536 to -1"),
    (6, &[(-65_537, -1)], "65537 to -1"),
    (0, &[(LEAST, LEAST)], "1 at the least bound"),
    (0, &[(GREATEST, GREATEST)], "1 at the greatest bound"),
    (0, &[(LEAST, LEAST + 65_535)], "65536 from the least bound"),
    (6, &[(LEAST, LEAST + 65_536)], "65537 from the least bound"),
    (
        0,
        &[(GREATEST - 65_535, GREATEST)],
        "65536 to the greatest bound",
    ),
    (
        6,
        &[(GREATEST - 65_536, GREATEST)],
        "65537 to the greatest bound",
    ),
    (6, &[(0, GREATEST)], "2^31"),
    (6, &[(LEAST, -1)], "2^31 of negative bounds"),
    (6, &[(LEAST, 0)], "2^31 + 1"),
    (6, &[(LEAST, GREATEST - 1)], "2^32 - 1"),
    (6, &[(LEAST, GREATEST)], "2^32"),
    (0, &[(1, 256), (1, 256)], "256 * 256"),
    (6, &[(1, 256), (1, 257)], "256 * 257"),
    (6, &[(1, 257), (1, 256)], "257 * 256"),
    (0, &[(1, 2), (1, 32_768)], "2 * 32768"),
    (6, &[(1, 2), (1, 32_769)], "2 * 32769"),
    (0, &[(-1, 1), (-10_922, 10_922)], "3 * 21845"),
    (6, &[(-1, 1), (-10_923, 10_922)], "3 * 21846"),
    (0, &[(5, 5), (1, 65_536), (5, 5)], "1 * 65536 * 1"),
    (6, &[(5, 5), (1, 65_537), (5, 5)], "1 * 65537 * 1"),
    (6, &[(1, 65_536), (1, 2)], "65536 * 2"),
    (6, &[(1, 65_536), (1, 65_536)], "2^16 * 2^16, 0 in 32 bits"),
    (6, &[(1, 65_537), (1, 65_535)], "65537 * 65535"),
    (
        6,
        &[(1, 65_537), (1, 65_537)],
        "65537 * 65537, small in 32 bits",
    ),
    (6, &[(LEAST, GREATEST), (5, 5)], "2^32 * 1"),
    (6, &[(5, 5), (LEAST, GREATEST)], "1 * 2^32"),
    (
        6,
        &[(LEAST, GREATEST), (LEAST, GREATEST)],
        "2^32 * 2^32, 0 in 64 bits",
    ),
    (
        6,
        &[(0, GREATEST), (0, GREATEST), (1, 4)],
        "2^31 * 2^31 * 4, 0 in 64 bits",
    ),
    (
        6,
        &[(1, 65_536), (1, 65_536), (1, 65_536), (1, 65_536)],
        "four times 2^16",
    ),
];

/// An array with these dimensions in place of one of three elements.
fn sized(expected: u32, bounds: &[(i32, i32)], what: &str) -> Case {
    let base = Base::new("Array shape")
        .add(SHAPES, &[[0, 0, 0, 0, 0], [12, 0, 0, 1, 0]])
        .add(DIMENSIONS, &[[1, 3]]);
    let what = format!("elements: {what}");
    base.case(expected, &what, |file| {
        file.sections[DIMENSIONS].clear();
        for (lower, upper) in bounds {
            file.push(DIMENSIONS, &[*lower as u32, *upper as u32]);
        }
        file.sections[SHAPES][1][3] = bounds.len() as u32;
    })
}

/// An array with `count` dimensions of two places.
fn many(expected: u32, count: usize) -> Case {
    sized(expected, &vec![(0, 1); count], &format!("2 to the {count}"))
}

/// Each array shape has the product of its own dimensions, whatever other
/// shapes and other dimensions there are.
fn several_shapes() -> Vec<Case> {
    let base = Base::new("Array shapes of 65536, of 2 and of 65536 arrays")
        .add(
            SHAPES,
            &[
                [0, 0, 0, 0, 0],
                [12, 0, 0, 1, 0],
                [12, 0, 1, 1, 0],
                [12, 1, 2, 1, 0],
            ],
        )
        .add(DIMENSIONS, &[[1, 65_536], [1, 2], [0, 65_535], [1, 65_537]]);
    let first = base
        .at(SHAPES, 1)
        .change(6, 3, &[2], "the first with two dimensions");
    let last = base.also_at(SHAPES, 3).changes(&[
        (6, 2, &[3, 1], "the last by the dimension of 65537"),
        (6, 2, &[1, 2], "the last by two dimensions"),
    ]);
    [first.cases, last.cases].concat()
}
