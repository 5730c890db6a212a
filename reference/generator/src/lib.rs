//! Seeded walk files that reach every record, step, refusal and table limit,
//! and the table that counts what they reached.
//!
//! The generator drives the reference record by record, so that the next record
//! can be chosen by what the tables hold.

pub mod actions;
pub mod ahead;
pub mod ahead_cells;
pub mod asked_cells;
pub mod carried;
pub mod carried_cells;
pub mod cells;
pub mod conditions;
pub mod coverage;
pub mod damage;
pub mod edges;
pub mod extremes;
pub mod forms;
pub mod header_cells;
pub mod headers;
pub mod known;
pub mod limits;
pub mod observer;
pub mod purge_cells;
pub mod purges;
pub mod random;
pub mod scenes;
pub mod vectors;
pub mod walk;
pub mod writes;

use random::Random;
use writes::Write;

/// The walk file with this number. It depends on the seed and the number alone.
pub fn walk_file(seed: u64, number: u64) -> Vec<u8> {
    scenes::any_file(&mut Random::new(seed, number))
}

/// The same of the damaged and random files alone.
pub fn damaged_file(seed: u64, number: u64) -> Vec<u8> {
    scenes::any_damaged_file(&mut Random::new(seed, number))
}

/// The write with this number.
pub fn write(seed: u64, number: u64) -> Write {
    writes::any_write(&mut Random::new(seed, number))
}
