//! Random shapes, with constants that suit them and others.

use super::Pairs;
use crate::draft::{Draft, Form};
use crate::random::Random;

/// Keeps these files apart from the stream's other ones.
const STREAM: u64 = 0x5ca1a5;

impl Pairs {
    /// File `number` of the stream `seed`.
    pub fn random(seed: u64, number: u64) -> Self {
        let mut draft = Draft::new(Random::new(&[seed, number, STREAM]));
        for _ in 0..draft.random.between(6, 14) {
            any_shape(&mut draft);
        }
        for shape in 0..draft.shapes() {
            for _ in 0..3 {
                draft.constant_for(shape);
            }
        }
        for _ in 0..draft.random.between(20, 60) {
            any_constant(&mut draft);
        }
        Pairs {
            records: draft.records,
        }
    }
}

/// A shape of any kind, scalars more often than others.
fn any_shape(draft: &mut Draft) {
    match draft.random.weighted(&[70, 12, 10, 4, 2, 2]) {
        0 => draft.leaf_shape(),
        1 => draft.subrange_shape(),
        2 => draft.text_shape(),
        3 => draft.any_shape(2),
        4 => draft.interface_shape(),
        _ => {
            let name = draft.block_name();
            draft.shape(Form::Block(name))
        }
    };
}

/// A constant of any kind, integers near the ties of REAL and LREAL more
/// often than others.
fn any_constant(draft: &mut Draft) {
    let value = match draft.random.weighted(&[20, 20, 15, 45]) {
        0 => draft.near_tie(24),
        1 => draft.near_tie(53),
        2 => i128::from(draft.random.word()),
        _ => {
            draft.any_constant();
            return;
        }
    };
    draft.integer(value);
}
