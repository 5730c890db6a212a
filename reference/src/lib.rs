//! A second opinion on walk files: document 01 written down in the most direct
//! way, with trees for messages and sets for what is known. It is read beside
//! the paper and compared with the proved engine; it shares nothing with it.

pub mod fields;
pub mod file;
pub mod intruder;
pub mod listing;
pub mod marks;
pub mod realm;
pub mod refusal;
pub mod rules;
pub mod steps;
pub mod tables;
pub mod terms;
pub mod writing;

pub use listing::listing;
