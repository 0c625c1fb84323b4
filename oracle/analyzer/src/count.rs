//! Which arms of the unchanged files were reached.

use std::sync::atomic::{AtomicBool, Ordering};

/// The arms that are counted: file, line, function and first line of pattern.
pub const ARMS: &[(&str, usize, &str, &str)] = &include!(concat!(env!("OUT_DIR"), "/arms.rs"));

static REACHED: [AtomicBool; ARMS.len()] = [const { AtomicBool::new(false) }; ARMS.len()];

/// Marks arm `place` of `ARMS`. Every arm calls this.
pub fn reach(place: usize) {
    REACHED[place].store(true, Ordering::Relaxed);
}

/// The places of the arms that were reached since the last call.
pub fn take_reached() -> Vec<u32> {
    let places = 0..ARMS.len();
    let reached = places.filter(|place| REACHED[*place].swap(false, Ordering::Relaxed));
    reached.map(|place| place as u32).collect()
}
