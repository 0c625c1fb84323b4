//! Declaration files as document 01 lays them out.

pub mod frames;
pub mod layout;
pub mod memory;
pub mod records;
pub mod refusals;
pub mod sheet;
pub mod text;
pub mod verdict;
