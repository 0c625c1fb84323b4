//! Runs the Rust on declaration files, each within a limit of time and memory.

pub mod cut;
pub mod memory;
pub mod outcome;
pub mod program;
pub mod right;
#[cfg(feature = "counted")]
pub mod unreachable;
pub mod worker;

#[global_allocator]
static MEMORY: memory::Limited = memory::Limited;
