//! The proved engine from Rust: what the crate `exported` exports, declared
//! again (`foreign`) and wrapped, so that nothing outside is `unsafe`.
//!
//! The functions of the engine require nothing of what they are lent. Every
//! answer is the engine's; this crate decides nothing.

mod foreign;
mod tables;
mod whole;

pub use foreign::{Entry, Header, Realm};
pub use tables::{Answer, Call, Role, Run, Stage, Tables, Term};
pub use tables::{CACHE_PLACES, MAX_RUNS, ROW_WORDS, RUN_WORDS, TERM_PLACES, WIRE_WORDS};
pub use whole::{list, listing, write, LISTING_BYTES, RECORD_WORDS};

/// A packed set of term numbers: bit `i % 64` of word `i / 64`.
pub type Set = [u64; WIRE_WORDS];

/// Whether a term is in a packed set.
pub fn is_marked(words: &[u64], term: u16) -> bool {
    let word = words.get(usize::from(term) / 64).copied().unwrap_or(0);
    word >> (term % 64) & 1 == 1
}

/// A mark of two letters as a number, the first letter in the high byte.
pub const fn mark(letters: &[u8; 2]) -> u16 {
    (letters[0] as u16) << 8 | letters[1] as u16
}
