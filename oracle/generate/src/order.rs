//! The types of a file in another order: circles and late declarations are
//! resolved in rising number, so the order decides what they give.

use crate::draft::Draft;
use files::layout::*;
use files::records::Records;

/// Words that hold a link to a type: section and word.
const TYPE_LINKS: [(usize, usize); 8] = [
    (TYPES, 1),
    (TYPES, 2),
    (TYPES, 3),
    (TYPES, 5),
    (BLOCK_FIELDS, 1),
    (VARIABLES, 2),
    (INITIALIZERS, 1),
    (INITIALIZERS, 2),
];

/// Puts the types in another order, in two of three files.
pub fn reorder(draft: &mut Draft) {
    let count = draft.records.count(TYPES);
    let mut order: Vec<u32> = (0..count).collect();
    match draft.random.below(6) {
        0 | 1 => return,
        2 => order.reverse(),
        3 if count > 1 => {
            let place = draft.random.below(count - 1) as usize;
            order.swap(place, place + 1);
        }
        _ => draft.random.shuffle(&mut order),
    }
    renumber_types(&mut draft.records, &order);
}

/// Moves type `number` to the place `order[number]`, with every link to it.
fn renumber_types(records: &mut Records, order: &[u32]) {
    for (section, word) in TYPE_LINKS {
        for record in &mut records.sections[section] {
            if record[word] != 0 && record[word] != INLINE {
                record[word] = order[record[word] as usize - 1] + 1;
            }
        }
    }
    let old = records.sections[TYPES].clone();
    for (number, record) in old.into_iter().enumerate() {
        records.sections[TYPES][order[number] as usize] = record;
    }
}
