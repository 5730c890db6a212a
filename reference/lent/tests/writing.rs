//! Walks written out by the proved engine: its answers, and what it does to the
//! buffer.

use std::fs;
use std::path::PathBuf;

use generator::writes::Write;
use lent::write;
use reference::file::{read_header, read_records, Header};
use reference::marks::mark;
use reference::writing::words;

const CASE_F: &[u8] = include_bytes!("../../../examples/case-f.walk");
const HEADER: Header =
    Header { mark: mark(b"HD"), principals: 3, flags: 0, ticket_life: 100, authenticator_life: 10 };

fn words_of(file: &[u8]) -> (Header, Vec<u32>) {
    let (header, rest) = read_header(file).unwrap();
    let (records, whole) = read_records(rest);
    assert!(whole);
    (header, words(&records))
}

/// The engine's answer and buffer are those of the reference.
fn check(write: &Write, name: &str) {
    let (expected, bytes) = write.answer();
    let mut buffer = write.buffer.clone();
    let answer = lent::write(&write.header, &write.words, &mut buffer, write.at);
    assert_eq!(answer, expected, "{name}\n{write}");
    assert!(buffer == bytes, "{name}: the buffers differ\n{write}");
}

#[test]
fn examples_are_written_as_they_were() {
    let directory = PathBuf::from(env!("CARGO_MANIFEST_DIR")).join("../../examples");
    let mut examples = 0;
    for entry in fs::read_dir(directory).unwrap() {
        let path = entry.unwrap().path();
        if path.extension().is_some_and(|extension| extension == "walk") {
            let file = fs::read(&path).unwrap();
            let (header, words) = words_of(&file);
            let mut buffer = vec![9; file.len() + 20];
            assert_eq!(write(&header, &words, &mut buffer, 7), Ok(file.len()));
            assert_eq!(buffer[7..][..file.len()], file, "{}", path.display());
            examples += 1;
        }
    }
    assert!(examples >= 10);
}

#[test]
fn generated_writes_have_the_answers_of_the_reference() {
    for number in 0..3000 {
        check(&generator::write(2, number), &format!("write {number}"));
    }
}

/// A buffer that is too short, and an offset at its end, past it, and so high
/// that a sum wraps.
#[test]
fn a_buffer_without_room_stays_as_it_was() {
    let (header, words) = words_of(CASE_F);
    let needed = CASE_F.len();
    for length in [0, 1, needed - 1, needed, needed + 1] {
        let before: Vec<u8> = (0..length).map(|at| at as u8).collect();
        let highest = [usize::MAX, usize::MAX - needed, usize::MAX - needed + 1];
        for at in (0..needed + 3).chain(highest).filter(|at| length < at.saturating_add(needed)) {
            let mut buffer = before.clone();
            assert_eq!(write(&header, &words, &mut buffer, at), Err(21), "{length} at {at}");
            assert!(buffer == before);
        }
    }
}

/// The file, whatever the buffer held, and the bytes before and behind it.
#[test]
fn only_the_file_is_written() {
    let fills: [fn(usize) -> u8; 3] = [|_| 0, |_| 255, |at| at as u8];
    for fill in fills {
        for (at, behind) in [(0, 0), (0, 1), (1, 0), (13, 7), (4096, 4096)] {
            for file in [CASE_F, &CASE_F[..13], &longest()] {
                let (header, words) = words_of(file);
                let buffer = (0..at + file.len() + behind).map(fill).collect();
                check(&Write { header, words, buffer, at }, "a file");
            }
        }
    }
}

/// 65,536 bytes in whole records.
fn longest() -> Vec<u8> {
    let mut file = CASE_F[..13].to_vec();
    file.extend(b"TM\x01\xff\xff\xff\xff".repeat(9));
    file.extend(b"ST\x07\0\0\0\0\0\xff\xff\xff\xff".repeat(5_455));
    assert_eq!(file.len(), 65_536);
    file
}

#[test]
fn one_record_too_many_gives_1() {
    let (header, mut words) = words_of(&longest());
    words.extend([0x544d, 1, 0, 0, 0, 0, 0]);
    let mut buffer = vec![5; 70_000];
    assert_eq!(write(&header, &words, &mut buffer, 0), Err(1));
    assert!(buffer.iter().all(|byte| *byte == 5));
}

/// One list for each refusal of a record, and lists that are cut short.
#[test]
fn refusals_have_their_numbers() {
    let lists: [(u8, &[u32]); 7] = [
        (3, &[0x4844, 7, 0, 0, 0, 0, 0]),
        (3, &[0x544d, 1, 0, 0, 0, 0]),
        (3, &[0x5354]),
        (4, &[0x544d, 256, 0, 0, 0, 0, 0]),
        (4, &[0x5354, 0, 0, 0, 0, 0, 0]),
        (5, &[0x5354, 7, 256, 0, 0, 0, 0]),
        (6, &[0x544d, 0, 65_536, 0, 0, 0, 0]),
    ];
    for (number, words) in lists {
        let mut buffer = vec![5; 100];
        assert_eq!(write(&HEADER, words, &mut buffer, 3), Err(number), "{words:?}");
        let header = Header { ticket_life: 0, ..HEADER };
        assert_eq!(write(&header, words, &mut buffer, 3), Err(2), "{words:?}");
        assert_eq!(write(&HEADER, words, &mut [], 3), Err(number), "{words:?}");
        assert!(buffer.iter().all(|byte| *byte == 5));
    }
}

/// The bytes of headers of each mark, and the refusals that depend on the mark.
#[test]
fn headers_are_written_by_their_marks() {
    let wide = Header { mark: mark(b"HW"), principals: 32, flags: 0x8000_0002, ..HEADER };
    for letters in [b"HW", b"H5", b"H4"] {
        let mut buffer = [5; 16];
        let wide = Header { mark: mark(letters), ..wide };
        assert_eq!(write(&wide, &[], &mut buffer, 0), Ok(15));
        assert_eq!(buffer[..2], *letters);
        assert_eq!(&buffer[2..], b"\x20\x80\0\0\x02\0\0\0\x64\0\0\0\x0a\x05");
    }
    let headers = [
        (1, Header { mark: mark(b"HX"), ..HEADER }),
        (1, Header { mark: 0, principals: 2, ..HEADER }),
        (2, Header { principals: 17, ..HEADER }),
        (2, Header { principals: 16, flags: 1 << 16, ..HEADER }),
        (2, Header { principals: 16, flags: 1 << 31, ..HEADER }),
        (2, Header { principals: 33, flags: 0, ..wide }),
        (2, Header { principals: 31, ..wide }),
        (2, Header { flags: 1, ..wide }),
        (2, Header { mark: mark(b"H5"), principals: 33, flags: 0, ..wide }),
        (2, Header { mark: mark(b"H4"), principals: 31, ..wide }),
        (1, Header { mark: mark(b"H6"), ..wide }),
    ];
    for (number, header) in headers {
        for words in [&[][..], &[0; 7], &[0]] {
            let write = Write { header, words: words.to_vec(), buffer: vec![5; 99], at: 9 };
            assert_eq!(write.answer().0, Err(number), "{write}");
            check(&write, "a header");
        }
    }
}
