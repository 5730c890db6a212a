//! Walks written out: their bytes, their place in the buffer, and that what was
//! written is read back.

mod common;

use std::fs;
use std::path::PathBuf;

use common::walk;
use reference::file::{read_header, read_records, Header, MAX_FILE_BYTES};
use reference::marks::mark;
use reference::refusal::Refusal;
use reference::writing::{file_bytes, rewrite, words, write};

const HEADER: Header = Header {
    mark: mark(b"HD"),
    principals: 5,
    flags: 0x12,
    ticket_life: 0x0102_0304,
    authenticator_life: 10,
};

/// Bytes of all values, none of them 0 at the start.
fn buffer(length: usize) -> Vec<u8> {
    (0..length).map(|at| (at * 7 + 3) as u8).collect()
}

/// The words of a walk file.
fn words_of(file: &[u8]) -> (Header, Vec<u32>) {
    let (header, rest) = read_header(file).unwrap();
    let (records, whole) = read_records(rest);
    assert!(whole);
    (header, words(&records))
}

fn some_walk() -> Vec<u8> {
    walk(
        "HD n=5 flags=0x12 Ls=100 La=10
          TM 1 L=65535 R=65535
          ST 1 a=1 b=4
          TM 6 L=9 R=511
          ST 7 t=4294967295",
    )
}

#[test]
fn bytes_are_those_of_a_file() {
    let words = [
        [0x544d, 5, 0x0102, 0x0304, 0, 0, 0],
        [0x5354, 4, 0xfe, 0, 0, 0x0506, 0],
        [0x5354, 1, 0, 3, 4, 0, 0],
        [0x5354, 7, 0, 0, 0, 0, 0x0708_090a],
    ];
    let mut buffer = buffer(100);
    let count = write(&HEADER, &words.concat(), &mut buffer, 0).unwrap();
    let expected = [
        &b"HD\x05\0\x12\x01\x02\x03\x04\0\0\0\x0a"[..],
        b"TM\x05\x01\x02\x03\x04",
        b"ST\x04\xfe\0\0\x05\x06\0\0\0\0",
        b"ST\x01\0\x03\x04\0\0\0\0\0\0",
        b"ST\x07\0\0\0\0\0\x07\x08\x09\x0a",
    ];
    assert_eq!(buffer[..count], expected.concat());
}

#[test]
fn a_header_alone_is_a_walk() {
    let mut buffer = buffer(13);
    assert_eq!(write(&HEADER, &[], &mut buffer, 0), Ok(13));
    assert_eq!(buffer, b"HD\x05\0\x12\x01\x02\x03\x04\0\0\0\x0a");
}

#[test]
fn words_behind_a_term_are_not_read() {
    let (header, words) = words_of(&some_walk());
    let mut other = words.clone();
    other[4..7].copy_from_slice(&[1, 0x5354, u32::MAX]);
    let (mut one, mut two) = (buffer(80), buffer(80));
    assert_eq!(write(&header, &words, &mut one, 3), write(&header, &other, &mut two, 3));
    assert_eq!(one, two);
}

#[test]
fn other_bytes_keep_their_values() {
    let file = some_walk();
    let (header, words) = words_of(&file);
    for at in [0, 1, 2, 13, 100] {
        for behind in [0, 1, 2, 100] {
            let before = buffer(at + file.len() + behind);
            let mut buffer = before.clone();
            assert_eq!(write(&header, &words, &mut buffer, at), Ok(file.len()));
            let end = at + file.len();
            assert_eq!(buffer[..at], before[..at]);
            assert_eq!(buffer[at..end], file);
            assert_eq!(buffer[end..], before[end..]);
        }
    }
}

#[test]
fn a_buffer_without_room_gives_21() {
    let file = some_walk();
    let (header, words) = words_of(&file);
    let ends = [usize::MAX, usize::MAX - 1, usize::MAX - file.len() + 1, usize::MAX - file.len()];
    for length in [0, 1, file.len() - 1, file.len(), file.len() + 1, 1000] {
        let first_without_room = (length + 1).saturating_sub(file.len());
        let last = first_without_room + file.len() + 2;
        for at in (first_without_room..last).chain([length, length + 1, 1 << 32]).chain(ends) {
            let before = buffer(length);
            let mut buffer = before.clone();
            let written = write(&header, &words, &mut buffer, at);
            assert_eq!(written, Err(Refusal::NoRoomInBuffer), "{length} bytes, at {at}");
            assert_eq!(buffer, before);
        }
    }
    assert_eq!(Refusal::NoRoomInBuffer.number(), 21);
}

#[test]
fn lengths_are_those_of_files() {
    let file = some_walk();
    let (header, words) = words_of(&file);
    let file_bytes = |words: &[u32]| file_bytes(&header, words);
    assert_eq!(file_bytes(&words), file.len());
    assert_eq!(file_bytes(&[]), 13);
    // A record that is cut short and one of another mark have none.
    assert_eq!(file_bytes(&words[..words.len() - 1]), file.len() - 12);
    assert_eq!(file_bytes(&[&words[..], &[0x4844; 7]].concat()), file.len());
}

/// The .walk files of a directory beside this one's parent.
fn stored(directory: &str) -> Vec<(String, Vec<u8>)> {
    let directory = PathBuf::from(env!("CARGO_MANIFEST_DIR")).join("..").join(directory);
    let paths = fs::read_dir(directory).unwrap().map(|entry| entry.unwrap().path());
    let walks = paths.filter(|path| path.extension().is_some_and(|extension| extension == "walk"));
    walks.map(|path| (path.display().to_string(), fs::read(&path).unwrap())).collect()
}

/// Does the listing refuse a record with one of these?
fn refuses(file: &[u8], numbers: std::ops::RangeInclusive<u8>) -> bool {
    let listing = reference::listing(file);
    numbers.into_iter().any(|number| listing.contains(&format!(" refused {number}\n")))
}

/// A stored walk that reads whole is written as the same bytes, or refused for
/// a record that reading refuses too.
#[test]
fn stored_walks_are_written_as_they_were() {
    let (mut same, mut refused) = (0, 0);
    for (name, file) in [stored("examples"), stored("crates/vectors/data")].concat() {
        if refuses(&file, 1..=3) {
            continue;
        }
        let (header, words) = words_of(&file);
        let before = buffer(MAX_FILE_BYTES + 200);
        let mut buffer = before.clone();
        match write(&header, &words, &mut buffer, 100) {
            Ok(count) => {
                assert!(!refuses(&file, 1..=5), "{name}");
                assert!(buffer[100..100 + count] == file, "{name}");
                same += 1;
            }
            Err(refusal) => {
                assert!(refuses(&file, refusal.number()..=refusal.number()), "{name}");
                assert!(refuses(&file, 4..=6) && buffer == before, "{name}");
                refused += 1;
            }
        }
    }
    assert!(same > 100 && refused > 60, "{same} written, {refused} refused");
}

#[test]
fn what_was_written_is_read_back() {
    for (name, file) in stored("examples") {
        let (header, words) = words_of(&file);
        let mut buffer = buffer(file.len() + 20);
        let count = write(&header, &words, &mut buffer, 9).unwrap();
        assert_eq!(words_of(&buffer[9..9 + count]), (header, words), "{name}");
    }
}

#[test]
fn a_file_that_reads_whole_is_written_again() {
    let file = some_walk();
    assert_eq!(rewrite(&file).unwrap(), file);
    assert_eq!(rewrite(&file[..13]).unwrap(), file[..13]);
    assert_eq!(rewrite(&[]), Err(Refusal::NoHeader));
    assert_eq!(rewrite(&file[..file.len() - 1]), Err(Refusal::BrokenRecord));
    let mut two_principals = file.clone();
    two_principals[2] = 2;
    assert_eq!(rewrite(&two_principals), Err(Refusal::BadHeader));
}
