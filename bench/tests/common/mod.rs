//! A file by the reference: its records, its listing, and the realm after it.

use reference::file::{read_header, read_record, read_records, Record};
use reference::listing;
use reference::realm::Realm;

pub fn lines(file: &[u8]) -> Vec<String> {
    listing(file).lines().map(String::from).collect()
}

/// The answers of the records after the header, without their numbers; without
/// the last line.
pub fn answers(file: &[u8]) -> Vec<String> {
    let lines = lines(file);
    let answers = lines[1..lines.len() - 1].iter();
    answers.map(|line| line.split_once(' ').unwrap().1.to_string()).collect()
}

pub fn records(file: &[u8]) -> Vec<Record> {
    read_records(read_header(file).unwrap().1).0
}

/// The realm after a file.
pub fn realm(file: &[u8]) -> Realm {
    let (header, mut rest) = read_header(file).unwrap();
    let mut realm = Realm::new(header.settings());
    while let Some(read) = read_record(rest) {
        let Ok((record, after)) = read else { break };
        let _ = realm.apply(&record);
        rest = after;
    }
    realm
}
