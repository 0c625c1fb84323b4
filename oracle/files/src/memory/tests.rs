//! The bytes here are written by hand from document 02, Q-1.

use super::*;
use crate::layout::*;
use crate::records::Records;
use crate::verdict::verdict;

/// A file with these shapes and a variable of a type of the last one.
fn of_shapes(shapes: &[[u32; 5]]) -> Records {
    let mut records = Records::default();
    records.push(SETTINGS, &[254]);
    for shape in shapes {
        records.push(SHAPES, shape);
    }
    let last = shapes.len() as u32 - 1;
    records.push(TYPES, &[last, 0, 0, 0, 0, 0, 0, 0, 0, INLINE, 0]);
    records.push(INITIALIZERS, &[0, 1, 0, 0, 0, 0, 0, 0]);
    records.push(VARIABLES, &[0, 4, 1, 0]);
    records
}

fn written(records: &Records, tree: &[Node]) -> Result<Vec<u8>, u32> {
    let words = records.words();
    assert_eq!(verdict(&words), 0);
    write(&File::open(&words).expect("it is a file"), 0, tree)
}

fn was_read(records: &Records, tree: &[Node], bytes: &[u8]) -> Result<(Vec<u32>, Vec<u32>), u32> {
    let words = records.words();
    read(&File::open(&words).expect("it is a file"), 0, tree, bytes)
}

fn nodes(nodes: &[Node], characters: &[u32]) -> Result<(Vec<u32>, Vec<u32>), u32> {
    Ok((nodes.concat(), characters.to_vec()))
}

/// An integer's node.
fn integer(value: i128) -> Node {
    let size = value.unsigned_abs() as u64;
    [0, 1, u32::from(value < 0), size as u32, (size >> 32) as u32, 0]
}

fn real(value: f64) -> Node {
    let bits = value.to_bits();
    [0, 3, 0, bits as u32, (bits >> 32) as u32, 0]
}

/// A leaf whose shape is the only one of its file, and back.
fn stands(shape: [u32; 5], node: Node, bytes: &[u8]) {
    let records = of_shapes(&[shape]);
    assert_eq!(written(&records, &[node]), Ok(bytes.to_vec()), "{shape:?}");
    assert_eq!(was_read(&records, &[node], bytes), nodes(&[node], &[]), "{shape:?}");
}

fn unheld(shape: [u32; 5], node: Node) {
    assert_eq!(written(&of_shapes(&[shape]), &[node]), Err(14), "{shape:?} {node:?}");
}

fn unread(shape: [u32; 5], bytes: &[u8]) {
    let node = [0, 1, 0, 0, 0, 0];
    assert_eq!(was_read(&of_shapes(&[shape]), &[node], bytes), Err(14), "{shape:?} {bytes:?}");
}

#[test]
fn integers_when_signed_then_twos_complement() {
    for (bits, bytes) in [(8, 1), (16, 2), (32, 4), (64, 8)] {
        stands([1, bits, 0, 0, 0], integer(-1), &[0xFF; 8][..bytes]);
    }
    stands([1, 8, 0, 0, 0], integer(-128), &[0x80]);
    stands([1, 16, 0, 0, 0], integer(-2), &[0xFE, 0xFF]);
    stands([1, 32, 0, 0, 0], integer(1_000_000), &[0x40, 0x42, 0x0F, 0x00]);
    stands([1, 64, 0, 0, 0], integer(-(1 << 63)), &[0, 0, 0, 0, 0, 0, 0, 0x80]);
    stands([2, 64, 0, 0, 0], integer((1 << 64) - 1), &[0xFF; 8]);
    stands([4, 16, 0, 0, 0], integer(0x1234), &[0x34, 0x12]);
    stands([2, 8, 0, 0, 0], integer(255), &[0xFF]);
}

#[test]
fn integers_when_outside_or_of_another_kind_then_14() {
    unheld([1, 8, 0, 0, 0], integer(128));
    unheld([1, 8, 0, 0, 0], integer(-129));
    unheld([2, 16, 0, 0, 0], integer(-1));
    unheld([4, 32, 0, 0, 0], integer(1 << 32));
    unheld([1, 16, 0, 0, 0], [0, 0, 0, 1, 0, 0]);
    unheld([1, 16, 0, 0, 0], real(1.0));
    unheld([5, 32, 0, 0, 0], integer(1));
    unread([1, 16, 0, 0, 0], &[1]);
    unread([1, 16, 0, 0, 0], &[1, 0, 0]);
    unread([1, 16, 0, 0, 0], &[]);
}

#[test]
fn bit_strings_when_at_an_integer_then_read_as_one() {
    let records = of_shapes(&[[1, 16, 0, 0, 0]]);
    let node = [0, 2, 0, 0x7FFF, 0, 0];
    assert_eq!(written(&records, &[node]), Ok(vec![0xFF, 0x7F]));
    assert_eq!(was_read(&records, &[node], &[0xFF, 0x7F]), nodes(&[integer(0x7FFF)], &[]));
    unheld([1, 16, 0, 0, 0], [0, 2, 0, 0x8000, 0, 0]);
}

#[test]
fn booleans_when_one_byte_then_0_or_1() {
    stands([0; 5], [0, 0, 0, 1, 0, 0], &[1]);
    stands([0; 5], [0, 0, 0, 0, 0, 0], &[0]);
    unheld([0; 5], integer(1));
    unread([0; 5], &[2]);
}

#[test]
fn times_when_long_then_read_as_long() {
    stands([5, 32, 0, 0, 0], [0, 4, 1, 1500, 0, 0], &[0x24, 0xFA, 0xFF, 0xFF]);
    stands([5, 64, 0, 0, 0], [0, 4, 0, 1, 1, 1], &[1, 0, 0, 0, 1, 0, 0, 0]);
    stands([7, 32, 0, 0, 0], [0, 5, 0, 86_399_999, 0, 0], &[0xFF, 0x5B, 0x26, 0x05]);
    stands([6, 16, 0, 0, 0], [0, 6, 0, 0xFFFF, 0, 0], &[0xFF, 0xFF]);
    stands([8, 64, 0, 0, 0], [0, 7, 0, 2, 0, 1], &[2, 0, 0, 0, 0, 0, 0, 0]);
    unheld([5, 8, 0, 0, 0], [0, 4, 0, 128, 0, 0]);
    unheld([6, 32, 0, 0, 0], [0, 7, 0, 1, 0, 0]);
    // A long literal at a short place is read as a short one.
    let records = of_shapes(&[[5, 16, 0, 0, 0]]);
    let node = [0, 4, 0, 5, 0, 1];
    assert_eq!(written(&records, &[node]), Ok(vec![5, 0]));
    assert_eq!(was_read(&records, &[node], &[5, 0]), nodes(&[[0, 4, 0, 5, 0, 0]], &[]));
}

#[test]
fn reals_when_short_then_rounded() {
    let records = of_shapes(&[[3, 32, 0, 0, 0]]);
    let bytes = [0xCD, 0xCC, 0xCC, 0x3D];
    assert_eq!(written(&records, &[real(0.1)]), Ok(bytes.to_vec()));
    // 0x3DCCCCCD as a binary64 is 0x3FB99999A0000000.
    assert_eq!(was_read(&records, &[real(0.1)], &bytes), nodes(&[[0, 3, 0, 0xA000_0000, 0x3FB9_9999, 0]], &[]));
    stands([3, 32, 0, 0, 0], real(1.0), &[0, 0, 0x80, 0x3F]);
    stands([3, 8, 0, 0, 0], real(-2.0), &[0, 0, 0, 0xC0]);
    stands([3, 16, 0, 0, 0], real(-0.0), &[0, 0, 0, 0x80]);
    stands([3, 32, 0, 0, 0], real(f64::NEG_INFINITY), &[0, 0, 0x80, 0xFF]);
    assert_eq!(written(&records, &[real(1e300)]), Ok(vec![0, 0, 0x80, 0x7F]));
    assert_eq!(written(&records, &[real(16_777_217.0)]), Ok(vec![0, 0, 0x80, 0x4B]));
    assert_eq!(written(&records, &[real(16_777_219.0)]), Ok(vec![2, 0, 0x80, 0x4B]));
    assert_eq!(written(&records, &[real(1e-300)]), Ok(vec![0, 0, 0, 0]));
    // The least subnormal of binary32 is 2 to the -149.
    assert_eq!(written(&records, &[real(2f64.powi(-149))]), Ok(vec![1, 0, 0, 0]));
    assert_eq!(written(&records, &[real(2f64.powi(-150))]), Ok(vec![0, 0, 0, 0]));
}

#[test]
fn reals_when_not_a_number_then_only_long() {
    unheld([3, 32, 0, 0, 0], real(f64::NAN));
    unread([3, 32, 0, 0, 0], &[1, 0, 0x80, 0x7F]);
    stands([3, 64, 0, 0, 0], [0, 3, 0, 1, 0xFFF0_0000, 0], &[1, 0, 0, 0, 0, 0, 0xF0, 0xFF]);
    stands([3, 64, 0, 0, 0], real(0.1), &[0x9A, 0x99, 0x99, 0x99, 0x99, 0x99, 0xB9, 0x3F]);
    unheld([3, 64, 0, 0, 0], integer(1));
}

/// A string place of five characters, and three characters of the file.
fn text(width: u32, characters: [u32; 3]) -> Records {
    let mut records = of_shapes(&[[9, 6, width, 0, 0]]);
    for character in characters {
        records.push(CHARACTERS, &[character]);
    }
    records
}

#[test]
fn strings_when_three_of_five_then_zeros_behind() {
    let narrow = text(0, [0x41, 0x42, 0xFF]);
    let bytes = [5, 0, 3, 0, 0x41, 0x42, 0xFF, 0, 0];
    let node = [0, 8, 0, 0, 3, 0];
    assert_eq!(written(&narrow, &[node]), Ok(bytes.to_vec()));
    assert_eq!(was_read(&narrow, &[node], &bytes), nodes(&[node], &[0x41, 0x42, 0xFF]));
    let wide = text(1, [0x41, 0x100, 0xFFFF]);
    let bytes = [5, 0, 3, 0, 0x41, 0, 0, 1, 0xFF, 0xFF, 0, 0, 0, 0];
    let node = [0, 8, 0, 0, 3, 1];
    assert_eq!(written(&wide, &[node]), Ok(bytes.to_vec()));
    assert_eq!(was_read(&wide, &[node], &bytes), nodes(&[node], &[0x41, 0x100, 0xFFFF]));
    let empty = [0, 8, 0, 0, 0, 0];
    let bytes = [5, 0, 0, 0, 0, 0, 0, 0, 0];
    assert_eq!(written(&narrow, &[empty]), Ok(bytes.to_vec()));
    assert_eq!(was_read(&narrow, &[empty], &bytes), nodes(&[empty], &[]));
}

#[test]
fn strings_when_other_bytes_then_14() {
    let records = text(0, [0x41; 3]);
    let node = [0, 8, 0, 0, 3, 0];
    for bytes in [
        [6, 0, 3, 0, 0x41, 0x41, 0x41, 0, 0],
        [5, 1, 3, 0, 0x41, 0x41, 0x41, 0, 0],
        [5, 0, 6, 0, 0x41, 0x41, 0x41, 0, 0],
        [5, 0, 2, 0, 0x41, 0x41, 0x41, 0, 0],
        [5, 0, 3, 0, 0x41, 0x41, 0x41, 0, 1],
    ] {
        assert_eq!(was_read(&records, &[node], &bytes), Err(14), "{bytes:?}");
    }
    // A zero within its length is a character.
    let bytes = [5, 0, 4, 0, 0x41, 0x41, 0x41, 0, 0];
    assert_eq!(was_read(&records, &[node], &bytes), nodes(&[[0, 8, 0, 0, 4, 0]], &[0x41, 0x41, 0x41, 0]));
}

#[test]
fn strings_when_longer_or_of_the_other_width_then_14() {
    let mut records = text(0, [0x41; 3]);
    assert_eq!(written(&records, &[[0, 8, 0, 0, 3, 1]]), Err(14));
    for _ in 0..3 {
        records.push(CHARACTERS, &[0x42]);
    }
    assert_eq!(written(&records, &[[0, 8, 0, 0, 6, 0]]), Err(14));
    assert_eq!(written(&of_shapes(&[[9, 65_537, 0, 0, 0]]), &[[0, 8, 0, 0, 0, 0]]), Err(14));
    let longest = written(&of_shapes(&[[9, 65_536, 1, 0, 0]]), &[[0, 8, 0, 0, 0, 1]]);
    let longest = longest.expect("it is held");
    assert_eq!((longest.len(), &longest[..4]), (4 + 131_070, &[0xFF, 0xFF, 0, 0][..]));
    // Without a length it is that of Settings.
    assert_eq!(written(&of_shapes(&[[9, 0, 0, 0, 0]]), &[[0, 8, 0, 0, 0, 0]]).map(|bytes| bytes.len()), Ok(258));
}

#[test]
fn strings_when_characters_are_cut_then_as_without() {
    for (width, bytes) in [(0, vec![5, 0, 2, 0, 0x41, 0x42, 0, 0, 0]), (1, vec![5, 0, 2, 0, 0x41, 0, 0x42, 0, 0, 0, 0, 0, 0, 0])] {
        let records = text(width, [0x41, 0x42, 0x43]);
        let whole = [0, 8, 0, 0, 2, width];
        for cut in [0, 1, 65_536] {
            let node = [0, 8, 0, 0, 2, width + 2 * cut];
            assert_eq!(written(&records, &[node]), Ok(bytes.clone()));
            assert_eq!(was_read(&records, &[node], &bytes), nodes(&[whole], &[0x41, 0x42]));
            let other = [0, 8, 0, 0, 2, 1 - width + 2 * cut];
            assert_eq!(written(&records, &[other]), Err(14));
        }
    }
}

#[test]
fn characters_when_too_wide_then_15() {
    assert_eq!(written(&text(0, [0x41, 0x42, 0x100]), &[[0, 8, 0, 0, 3, 0]]), Err(15));
    assert_eq!(written(&text(0, [0x41, 0x42, 0x100]), &[[0, 8, 0, 0, 2, 0]]).map(|bytes| bytes.len()), Ok(9));
    assert_eq!(written(&text(1, [0x1_0000, 0x42, 0x43]), &[[0, 8, 0, 0, 3, 1]]), Err(15));
}

#[test]
fn kind_4_when_a_variable_then_its_initializers_string() {
    let mut records = of_shapes(&[[1, 16, 0, 0, 0]]);
    records.push(CHARACTERS, &[0x41]);
    records.sections[INITIALIZERS][0] = vec![4, 1, 0, 0, 0, 0, 3, 1];
    assert_eq!(written(&records, &[[0, 8, 0, 0, 1, 1]]), Ok(vec![2, 0, 1, 0, 0x41, 0, 0, 0]));
}

#[test]
fn enumerations_when_a_member_twice_then_its_first_place() {
    let mut records = of_shapes(&[[10, 1, 4, 0, 0]]);
    for name in [9, 20, 21, 20, 22] {
        records.push(MEMBERS, &[name]);
    }
    let member = |name| [0, 9, 0, name, 0, 0];
    for (name, place) in [(20, 0), (21, 1), (22, 3)] {
        assert_eq!(written(&records, &[member(name)]), Ok(vec![place, 0]));
        assert_eq!(was_read(&records, &[member(20)], &[place, 0]), nodes(&[member(name)], &[]));
    }
    assert_eq!(written(&records, &[[0, 9, 0, 20, 77, 0]]), Ok(vec![0, 0]), "a qualifier is not looked at");
    assert_eq!(written(&records, &[member(9)]), Err(14));
    assert_eq!(written(&records, &[integer(1)]), Err(14));
    assert_eq!(was_read(&records, &[member(20)], &[2, 0]), Err(14), "not its first place");
    assert_eq!(was_read(&records, &[member(20)], &[4, 0]), Err(14));
    assert_eq!(was_read(&records, &[member(20)], &[0, 1]), Err(14));
}

/// A subrange from `least` to `greatest` over shapes, the last its base.
fn bounded(shapes: &[[u32; 5]], bounds: &[[i128; 2]]) -> Records {
    let mut shapes = shapes.to_vec();
    for at in 0..bounds.len() as u32 {
        shapes.push([13, shapes.len() as u32 - 1, 2 * at, 2 * at + 1, 0]);
    }
    let mut records = of_shapes(&shapes);
    for bound in bounds.iter().flatten() {
        let node = integer(*bound);
        records.push(CONSTANTS, &node[1..]);
    }
    records
}

#[test]
fn subranges_when_over_subranges_then_within_all() {
    let records = bounded(&[[1, 16, 0, 0, 0]], &[[-5, 1000], [-9, 300], [0, 400]]);
    assert_eq!(written(&records, &[integer(300)]), Ok(vec![0x2C, 0x01]));
    assert_eq!(was_read(&records, &[integer(0)], &[0x2C, 0x01]), nodes(&[integer(300)], &[]));
    for value in [-1, 301] {
        assert_eq!(written(&records, &[integer(value)]), Err(14));
        let bytes = (value as i16).to_le_bytes();
        assert_eq!(was_read(&records, &[integer(0)], &bytes), Err(14));
    }
}

#[test]
fn subranges_when_wider_than_their_base_then_its_range() {
    let records = bounded(&[[1, 8, 0, 0, 0]], &[[-1000, 1000]]);
    assert_eq!(written(&records, &[integer(-128)]), Ok(vec![0x80]));
    assert_eq!(written(&records, &[integer(128)]), Err(14));
    let records = bounded(&[[4, 8, 0, 0, 0]], &[[-1000, 1000]]);
    assert_eq!(written(&records, &[integer(255)]), Ok(vec![0xFF]));
    assert_eq!(was_read(&records, &[integer(0)], &[0xFF]), nodes(&[integer(255)], &[]));
    assert_eq!(written(&records, &[integer(-1)]), Err(14));
    assert_eq!(written(&records, &[[0, 2, 0, 7, 0, 0]]), Ok(vec![7]));
}

#[test]
fn subranges_when_over_no_integer_then_14() {
    for base in [[0; 5], [3, 32, 0, 0, 0], [5, 32, 0, 0, 0], [9, 3, 0, 0, 0]] {
        let records = bounded(&[base], &[[0, 1], [0, 1]]);
        assert_eq!(written(&records, &[integer(1)]), Err(14), "{base:?}");
        for length in 0..6 {
            assert_eq!(was_read(&records, &[integer(1)], &[0; 6][..length]), Err(14), "{base:?}");
        }
    }
}

#[test]
fn nulls_when_anywhere_then_four_zeros() {
    let null = [0, 10, 0, 0, 0, 0];
    for shape in [[1, 8, 0, 0, 0], [3, 64, 0, 0, 0], [15, 30, 0, 0, 0], [11, 0, 0, 0, 0]] {
        stands(shape, null, &[0; 4]);
        assert_eq!(was_read(&of_shapes(&[shape]), &[null], &[0, 0, 0, 1]), Err(14));
        assert_eq!(was_read(&of_shapes(&[shape]), &[null], &[0; 5]), Err(14));
    }
    let reference = of_shapes(&[[1, 16, 0, 0, 0], [16, 0, 0, 0, 0]]);
    assert_eq!(written(&reference, &[null]), Ok(vec![0; 4]));
    for kind in [11, 12] {
        let node = [0, kind, 0, 0, 0, 0];
        assert_eq!(written(&reference, &[node]), Err(14));
        assert_eq!(was_read(&reference, &[node], &[0; 4]), nodes(&[null], &[]));
        unheld([1, 16, 0, 0, 0], node);
        let integer_place = of_shapes(&[[1, 16, 0, 0, 0]]);
        assert_eq!(was_read(&integer_place, &[node], &[5, 0]), nodes(&[integer(5)], &[]));
    }
    assert_eq!(written(&reference, &[integer(0)]), Err(14));
}

/// A structure of a byte 1, and 2, rows of two lamps, each an INT.
fn station() -> Records {
    let mut records = of_shapes(&[
        [2, 8, 0, 0, 0],
        [1, 16, 0, 0, 0],
        [12, 1, 0, 1, 0],
        [12, 2, 1, 1, 0],
        [11, 0, 2, 0, 0],
    ]);
    records.push(DIMENSIONS, &[1, 2]);
    records.push(DIMENSIONS, &[u32::MAX, 0]);
    records.push(SHAPE_FIELDS, &[1, 0, 0]);
    records.push(SHAPE_FIELDS, &[2, 3, 0]);
    records
}

const STATION: [Node; 7] = [
    [0, 14, 0, 2, 0, 0],
    [1, 1, 0, 7, 0, 0],
    [2, 13, 0, 4, 0, 0],
    [0, 1, 0, 1, 0, 0],
    [0, 1, 1, 2, 0, 0],
    [0, 1, 0, 3, 0, 0],
    [0, 1, 0, 0x104, 0, 0],
];

#[test]
fn structures_when_an_array_in_them_then_without_gaps() {
    let records = station();
    let bytes = [7, 1, 0, 0xFE, 0xFF, 3, 0, 4, 1];
    assert_eq!(written(&records, &STATION), Ok(bytes.to_vec()));
    let mut nameless = STATION;
    for node in &mut nameless {
        node[0] = 0;
    }
    assert_eq!(was_read(&records, &STATION, &bytes), nodes(&nameless, &[]));
    assert_eq!(was_read(&records, &STATION, &bytes[..8]), Err(14));
}

#[test]
fn structures_when_their_parts_are_others_then_14() {
    let records = station();
    let mut tree = STATION;
    tree[1][0] = 3;
    assert_eq!(written(&records, &tree), Err(14));
    assert_eq!(was_read(&records, &tree, &[0; 9]), Err(14));
    let fewer = [[0, 14, 0, 1, 0, 0], STATION[1]];
    assert_eq!(written(&records, &fewer), Err(14));
    let swapped = [&STATION[..1], &STATION[2..], &STATION[1..2]].concat();
    assert_eq!(written(&records, &swapped), Err(14));
    let shorter = [&STATION[..2], &[[2, 13, 0, 3, 0, 0]], &STATION[3..6]].concat();
    assert_eq!(written(&records, &shorter), Err(14));
    let inner = [&STATION[..2], &[[2, 1, 0, 3, 0, 0]]].concat();
    assert_eq!(written(&records, &inner), Err(14));
    let null = [&STATION[..2], &[[2, 10, 0, 0, 0, 0]]].concat();
    assert_eq!(written(&records, &null), Ok(vec![7, 0, 0, 0, 0]));
    unheld([1, 16, 0, 0, 0], [0, 14, 0, 0, 0, 0]);
    assert_eq!(written(&of_shapes(&[[11, 0, 0, 0, 0]]), &[[0, 14, 0, 0, 0, 0]]), Ok(vec![]));
}

#[test]
fn blocks_when_parts_are_fields_then_by_their_types() {
    let mut records = of_shapes(&[[1, 16, 0, 0, 0], [0; 5], [14, 30, 0, 0, 0]]);
    // 1 and 2 are an INT and a BOOL, 3 has no type.
    records.push(TYPES, &[0, 0, 0, 0, 0, 0, 0, 0, 0, INLINE, 0]);
    records.push(TYPES, &[1, 0, 0, 0, 0, 0, 0, 0, 0, INLINE, 0]);
    for field in [[1, 2, 0], [2, 3, 2], [3, 0, 0]] {
        records.push(BLOCK_FIELDS, &field);
    }
    records.sections[TYPES][0][9..].copy_from_slice(&[0, 3]);
    let tree = [[0, 14, 0, 2, 0, 0], [2, 0, 0, 1, 0, 0], [1, 1, 0, 5, 0, 0]];
    assert_eq!(written(&records, &tree), Ok(vec![1, 5, 0]));
    let untyped = [[0, 14, 0, 1, 0, 0], [3, 1, 0, 0, 0, 0]];
    assert_eq!(written(&records, &untyped), Err(14));
    let null = [[0, 14, 0, 1, 0, 0], [3, 10, 0, 0, 0, 0]];
    assert_eq!(written(&records, &null), Ok(vec![0; 4]));
    let unknown = [[0, 14, 0, 1, 0, 0], [4, 1, 0, 0, 0, 0]];
    assert_eq!(written(&records, &unknown), Err(14));
    assert_eq!(written(&records, &[[0, 14, 0, 0, 0, 0]]), Ok(vec![]));
}

#[test]
fn refusal_14_when_a_character_is_too_wide_before_then_14() {
    let mut records = of_shapes(&[[9, 6, 0, 0, 0], [0; 5], [11, 0, 2, 0, 0]]);
    records.push(SHAPE_FIELDS, &[1, 0, 0]);
    records.push(SHAPE_FIELDS, &[2, 1, 0]);
    records.push(CHARACTERS, &[0x100]);
    let tree = [[0, 14, 0, 2, 0, 0], [1, 8, 0, 0, 1, 0], [2, 1, 0, 1, 0, 0]];
    assert_eq!(written(&records, &tree), Err(14));
    let tree = [tree[0], tree[1], [2, 0, 0, 1, 0, 0]];
    assert_eq!(written(&records, &tree), Err(15));
}

#[test]
fn strings_when_several_then_characters_one_behind_the_other() {
    let mut records = of_shapes(&[[9, 3, 0, 0, 0], [12, 0, 0, 1, 0]]);
    records.push(DIMENSIONS, &[0, 2]);
    for character in [0x41, 0x42, 0x43] {
        records.push(CHARACTERS, &[character]);
    }
    let tree = [[0, 13, 0, 3, 0, 0], [0, 8, 0, 1, 2, 0], [0, 8, 0, 0, 0, 0], [0, 8, 0, 0, 1, 0]];
    let bytes = [2, 0, 2, 0, 0x42, 0x43, 2, 0, 0, 0, 0, 0, 2, 0, 1, 0, 0x41, 0];
    assert_eq!(written(&records, &tree), Ok(bytes.to_vec()));
    let expected = [tree[0], [0, 8, 0, 0, 2, 0], [0, 8, 0, 0, 0, 0], [0, 8, 0, 2, 1, 0]];
    assert_eq!(was_read(&records, &tree, &bytes), nodes(&expected, &[0x42, 0x43, 0x41]));
}
