//! The two sides: each lists all files of a row, one after the other, or writes
//! their walks out.
//!
//! The engine writes into one buffer that is never cleared; its own tables are
//! cleared for each file. The reference makes a string for each file.

use std::hint::black_box;

use lent::LISTING_BYTES;
use reference::writing::RECORD_WORDS;

use crate::written::{both_write, writing_of_the_engine, writing_of_the_reference, Walk};

/// What is done with the files of a row.
#[derive(Clone, Copy, Debug, PartialEq, Eq)]
pub enum Work {
    List,
    Write,
}

impl Work {
    pub fn name(self) -> &'static str {
        match self {
            Work::List => "list",
            Work::Write => "write",
        }
    }

    pub fn named(name: &str) -> Option<Work> {
        [Work::List, Work::Write].into_iter().find(|work| work.name() == name)
    }
}

/// Files, and their walks where these are to be written.
pub struct Input {
    pub work: Work,
    pub files: Vec<Vec<u8>>,
    walks: Vec<Walk>,
}

impl Input {
    pub fn new(work: Work, files: Vec<Vec<u8>>) -> Input {
        let walks = match work {
            Work::List => Vec::new(),
            Work::Write => files.iter().map(|file| Walk::of(file)).collect(),
        };
        Input { work, files, walks }
    }
}

#[derive(Clone, Copy, Debug, PartialEq, Eq)]
pub enum Side {
    Engine,
    Reference,
}

impl Side {
    pub fn name(self) -> &'static str {
        match self {
            Side::Engine => "engine",
            Side::Reference => "reference",
        }
    }

    pub fn named(name: &str) -> Option<Side> {
        [Side::Engine, Side::Reference].into_iter().find(|side| side.name() == name)
    }

    pub fn pass(self, input: &Input, buffer: &mut [u8]) {
        match (self, input.work) {
            (Side::Engine, Work::List) => pass_of_the_engine(&input.files, buffer),
            (Side::Reference, Work::List) => pass_of_the_reference(&input.files),
            (Side::Engine, Work::Write) => writing_of_the_engine(&input.walks, buffer),
            (Side::Reference, Work::Write) => writing_of_the_reference(&input.walks, buffer),
        }
    }

    /// The function above by the name that callgrind knows it by.
    pub fn symbol(self, work: Work) -> &'static str {
        match (self, work) {
            (Side::Engine, Work::List) => "pass_of_the_engine",
            (Side::Reference, Work::List) => "pass_of_the_reference",
            (Side::Engine, Work::Write) => "writing_of_the_engine",
            (Side::Reference, Work::Write) => "writing_of_the_reference",
        }
    }
}

pub fn buffer() -> Vec<u8> {
    vec![0; LISTING_BYTES]
}

#[no_mangle]
#[inline(never)]
fn pass_of_the_engine(files: &[Vec<u8>], buffer: &mut [u8]) {
    for file in files {
        black_box(lent::list(black_box(file), buffer));
    }
}

#[no_mangle]
#[inline(never)]
fn pass_of_the_reference(files: &[Vec<u8>]) {
    for file in files {
        black_box(reference::listing(black_box(file)));
    }
}

/// How many lines the listings have, or would have; or for which file the sides
/// differ.
pub fn compare(input: &Input) -> Result<usize, usize> {
    match input.work {
        Work::List => compare_listings(&input.files),
        Work::Write => compare_written(&input.walks, &input.files),
    }
}

fn compare_listings(files: &[Vec<u8>]) -> Result<usize, usize> {
    let mut buffer = buffer();
    let mut lines = 0;
    for (number, file) in files.iter().enumerate() {
        let listing = reference::listing(file);
        let count = lent::list(file, &mut buffer).expect("the buffer has room");
        if buffer[..count] != *listing.as_bytes() {
            return Err(number);
        }
        lines += listing.lines().count();
    }
    Ok(lines)
}

/// A listing has a line for the header, one a record, and a last one.
fn compare_written(walks: &[Walk], files: &[Vec<u8>]) -> Result<usize, usize> {
    let buffer = buffer();
    let mut lines = 0;
    for (number, (walk, file)) in walks.iter().zip(files).enumerate() {
        if !both_write(walk, file, &buffer) {
            return Err(number);
        }
        lines += walk.words.len() / RECORD_WORDS + 2;
    }
    Ok(lines)
}
