//! Whole walks: a file to its listing, and a header and records to a file.

use std::cell::RefCell;

use crate::foreign::{pogandir_list, pogandir_write, Header};

/// Room for any listing.
pub const LISTING_BYTES: usize = 224_758;

/// Words in a record that is handed over to be written.
pub const RECORD_WORDS: usize = 7;

/// Writes the listing of a file to the start of a buffer, and gives its length.
/// A buffer shorter than LISTING_BYTES gives none and stays as it was.
pub fn list(file: &[u8], out: &mut [u8]) -> Option<usize> {
    // SAFETY: each pointer and length is of one slice, borrowed for the call;
    // the contract has no requires.
    let listed = unsafe { pogandir_list(file.as_ptr(), file.len(), out.as_mut_ptr(), out.len()) };
    listed.fits.then_some(listed.count)
}

thread_local! {
    static BUFFER: RefCell<Vec<u8>> = RefCell::new(vec![0; LISTING_BYTES]);
}

/// The listing of a file, by way of one buffer for all files.
pub fn listing(file: &[u8]) -> Vec<u8> {
    BUFFER.with_borrow_mut(|buffer| {
        let count = list(file, buffer).expect("the buffer has room");
        buffer[..count].to_vec()
    })
}

/// Writes the file at the offset of the buffer, and gives the number of its
/// bytes; or a refusal's number, and the buffer stays as it was. A record is
/// seven words: its mark as a number, then its fields in the order of the file.
pub fn write(header: Header, words: &[u32], buffer: &mut [u8], at: usize) -> Result<usize, u8> {
    // SAFETY: each pointer and length is of one slice, borrowed for the call;
    // the contract has no requires.
    let filed = unsafe {
        pogandir_write(header, words.as_ptr(), words.len(), buffer.as_mut_ptr(), buffer.len(), at)
    };
    if filed.refusal == 0 {
        Ok(filed.count)
    } else {
        assert_eq!(filed.count, 0, "a refusal has no count");
        Err(filed.refusal)
    }
}
