//! The rows of the table: names, files, and what is done with them.

use crate::sides::{Input, Work};
use crate::walks;

pub struct Row {
    pub name: &'static str,
    pub work: Work,
    /// The files with so many eighths of the records that repeat, or with so
    /// many eighths of the files.
    pub files: fn(usize) -> Vec<Vec<u8>>,
}

impl Row {
    pub fn input(&self, eighths: usize) -> Input {
        Input::new(self.work, (self.files)(eighths))
    }
}

const fn listed(name: &'static str, files: fn(usize) -> Vec<Vec<u8>>) -> Row {
    Row { name, work: Work::List, files }
}

const fn written(name: &'static str, files: fn(usize) -> Vec<Vec<u8>>) -> Row {
    Row { name, work: Work::Write, files }
}

pub const ROWS: [Row; 13] = [
    listed("a long honest walk", |eighths| vec![walks::honest(eighths)]),
    listed("the same under H5", |eighths| vec![walks::honest_under(b"H5", eighths)]),
    listed("the same under H4", |eighths| vec![walks::honest_under(b"H4", eighths)]),
    listed("terms only", |eighths| vec![walks::terms_only(eighths)]),
    listed("the first of 512 terms again", |eighths| vec![walks::first_term(eighths)]),
    listed("deliveries on full tables, keys in the worst order", |eighths| {
        vec![walks::deliveries(eighths)]
    }),
    listed("deep shared terms", |eighths| vec![walks::deep(eighths)]),
    listed("32 purges a tick on a full cache", |eighths| vec![walks::purges(eighths)]),
    listed("many principals", |eighths| vec![walks::principals(eighths)]),
    listed("8,000 damaged files", walks::damaged),
    listed("10,000 small files", walks::small),
    listed("every step sends", walks::sending),
    written("the five long walks written out", walks::long),
];
