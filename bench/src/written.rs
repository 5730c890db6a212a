//! Walks written out: the records of files as words, made before a pass, and the
//! two sides that write them into a buffer, one over the other.

use std::hint::black_box;

use reference::file::{read_header, read_records, Header};
use reference::writing::{self, words};

/// Where in the buffer a file is written.
const AT: usize = 1_000;

pub struct Walk {
    pub header: Header,
    pub words: Vec<u32>,
}

impl Walk {
    /// The walk of a file that is read whole.
    pub fn of(file: &[u8]) -> Walk {
        let (header, rest) = read_header(file).expect("the header is good");
        let (records, whole) = read_records(rest);
        assert!(whole, "the file is read whole");
        Walk { header, words: words(&records) }
    }
}

#[no_mangle]
#[inline(never)]
pub fn writing_of_the_engine(walks: &[Walk], buffer: &mut [u8]) {
    for Walk { header, words } in walks {
        let _ = black_box(lent::write(black_box(header), black_box(words), buffer, AT));
    }
}

#[no_mangle]
#[inline(never)]
pub fn writing_of_the_reference(walks: &[Walk], buffer: &mut [u8]) {
    for Walk { header, words } in walks {
        let _ = black_box(writing::write(black_box(header), black_box(words), buffer, AT));
    }
}

/// Does either side write the walk as the file that it was read from, and
/// nothing else?
pub fn both_write(walk: &Walk, file: &[u8], buffer: &[u8]) -> bool {
    let (mut one, mut other) = (buffer.to_vec(), buffer.to_vec());
    let Walk { header, words } = walk;
    let engine = lent::write(header, words, &mut one, AT);
    let reference = writing::write(header, words, &mut other, AT);
    engine == Ok(file.len())
        && reference == Ok(file.len())
        && other[AT..][..file.len()] == *file
        && one == other
}
