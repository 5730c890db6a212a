//! Rows that are of the file and not of a call: the header, and the place where the
//! reading ended.

use crate::listed::Listed;
use crate::reason;
use crate::record::Record;
use crate::vocabulary::{Mark, LONGEST_FILE, MARKS, REFUSED_HEADER};

/// What such a row is, in words.
pub fn call(listed: &Listed, record: usize) -> String {
    match (&listed.walk, record) {
        (Some(walk), 0) => format!("a realm of {} principals opens", walk.header.n),
        (None, 0) => "a realm is to open".to_string(),
        _ => "no record".to_string(),
    }
}

/// Why the reading ended at a record.
pub fn reason(listed: &Listed, record: usize, refusal: u8) -> String {
    if listed.bytes.len() > LONGEST_FILE {
        return format!("the file has {} bytes", listed.bytes.len());
    }
    let rest = &listed.bytes[start_of(&listed.bytes, record)..];
    match (refusal, Record::first_of(rest)) {
        (REFUSED_HEADER, Some(record)) => {
            record.header().map_or(String::new(), |header| reason::header(record.mark, &header))
        }
        _ => unread(rest),
    }
}

/// The place in the file at which a record begins.
fn start_of(bytes: &[u8], record: usize) -> usize {
    let mut at = 0;
    for _ in 0..record {
        at += Record::first_of(&bytes[at..]).map_or(0, |record| record.mark.record_bytes());
    }
    at
}

/// Bytes that are no record that may stand there.
fn unread(rest: &[u8]) -> String {
    let begins = |mark: &&Mark| rest.starts_with(mark.letters.as_bytes());
    match MARKS.iter().find(begins) {
        _ if rest.is_empty() => "the file is empty".to_string(),
        Some(mark) if rest.len() >= mark.record_bytes() => {
            format!("{} may not stand here", mark.letters)
        }
        Some(mark) => {
            let (letters, whole) = (mark.letters, mark.record_bytes());
            format!("{letters} has {whole} bytes, and {} are left", rest.len())
        }
        None => format!("the bytes begin with {}", shown(&rest[..rest.len().min(2)])),
    }
}

/// Bytes as letters where they are, else as numbers.
fn shown(bytes: &[u8]) -> String {
    let is_plain = |byte: &u8| byte.is_ascii_graphic();
    if bytes.iter().all(is_plain) {
        return bytes.iter().map(|&byte| char::from(byte)).collect();
    }
    let numbers: Vec<String> = bytes.iter().map(|byte| format!("{byte:02x}")).collect();
    numbers.join(" ")
}
