//! The comparison of writers: it finds nothing where nothing is, and each of
//! some writers that go wrong.

use std::process::Command;

use compare::writes::{difference, Writer};
use compare::Outcome;
use generator::writes::Write;
use reference::file::{Header, MAX_FILE_BYTES};
use reference::marks::{format_of, mark, FORMATS};
use reference::writing::{file_bytes, write};

fn same(header: &Header, words: &[u32], buffer: &mut [u8], at: usize) -> Result<usize, u8> {
    write(header, words, buffer, at).map_err(|refusal| refusal.number())
}

fn over(writer: Writer, writes: u64) -> Outcome {
    let mut outcome = Outcome::default();
    for number in 0..writes {
        let name = format!("write {number}");
        outcome.compare_write(writer, &name, &generator::write(7, number));
    }
    outcome
}

#[test]
fn equal_writers_do_not_differ() {
    let outcome = over(same, 2000);
    assert_eq!((outcome.compared, outcome.different, outcome.first), (2000, 0, None));
}

/// Keeps 16 bits of every word behind a mark but t.
fn narrow(header: &Header, words: &[u32], buffer: &mut [u8], at: usize) -> Result<usize, u8> {
    let keep = |(at, word): (usize, &u32)| if at % 7 == 6 { *word } else { word & 0xffff };
    let words: Vec<u32> = words.iter().enumerate().map(keep).collect();
    same(header, &words, buffer, at)
}

/// Writes the header before it looks at the records and the room.
fn hasty(header: &Header, words: &[u32], buffer: &mut [u8], at: usize) -> Result<usize, u8> {
    if file_bytes(header, words) <= MAX_FILE_BYTES {
        let _ = same(header, &[], buffer, at);
    }
    same(header, words, buffer, at)
}

/// Looks at the room first.
fn room_first(header: &Header, words: &[u32], buffer: &mut [u8], at: usize) -> Result<usize, u8> {
    let needed = file_bytes(header, words);
    if buffer.len().checked_sub(at).is_none_or(|left| left < needed) {
        return Err(21);
    }
    same(header, words, buffer, at)
}

/// Lets the sum of the offset and the length wrap.
fn wrapping(header: &Header, words: &[u32], buffer: &mut [u8], at: usize) -> Result<usize, u8> {
    match same(header, words, buffer, at) {
        Err(21) if at.wrapping_add(file_bytes(header, words)) <= buffer.len() => {
            Ok(file_bytes(header, words))
        }
        answer => answer,
    }
}

/// Clears the byte behind the file.
fn closing(header: &Header, words: &[u32], buffer: &mut [u8], at: usize) -> Result<usize, u8> {
    let count = same(header, words, buffer, at)?;
    if let Some(byte) = buffer.get_mut(at + count) {
        *byte = 0;
    }
    Ok(count)
}

/// Leaves out a last record that is cut short.
fn lenient(header: &Header, words: &[u32], buffer: &mut [u8], at: usize) -> Result<usize, u8> {
    same(header, &words[..words.len() / 7 * 7], buffer, at)
}

/// Has one limit of n for every mark.
fn one_limit(header: &Header, words: &[u32], buffer: &mut [u8], at: usize) -> Result<usize, u8> {
    if header.principals > 16 {
        return Err(2);
    }
    same(header, words, buffer, at)
}

/// Keeps the flags that two bytes have room for.
fn low_flags(header: &Header, words: &[u32], buffer: &mut [u8], at: usize) -> Result<usize, u8> {
    same(&Header { flags: header.flags & 0xffff, ..*header }, words, buffer, at)
}

/// Takes another mark for HD.
fn any_mark(header: &Header, words: &[u32], buffer: &mut [u8], at: usize) -> Result<usize, u8> {
    let mark = format_of(header.mark).unwrap_or(&FORMATS[0]).mark;
    same(&Header { mark, ..*header }, words, buffer, at)
}

#[test]
fn wrong_writers_are_found() {
    let wrong = [narrow, hasty, room_first, wrapping, closing, lenient] as [Writer; 6];
    let wrong_marks = [one_limit, low_flags, any_mark] as [Writer; 3];
    for writer in wrong.into_iter().chain(wrong_marks) {
        let outcome = over(writer, 2000);
        assert!(outcome.different > 10, "{}", outcome.different);
    }
}

fn some_write() -> Write {
    let header = Header {
        mark: mark(b"HD"),
        principals: 3,
        flags: 0,
        ticket_life: 100,
        authenticator_life: 10,
    };
    Write { header, words: vec![0x5354, 7, 0, 0, 0, 0, 9], buffer: vec![7; 30], at: 2 }
}

#[test]
fn a_difference_is_told() {
    let mut write = some_write();
    assert_eq!(difference(same, &write), None);
    let closed = "25 bytes written, byte 27 of the buffer was 0x07
  reference: 0x07
  engine:    0x00";
    assert_eq!(difference(closing, &write).unwrap(), closed);
    write.words[3] = 1 << 16;
    let narrowed = "answers\n  reference: refused 5\n  engine:    25 bytes written";
    assert_eq!(difference(narrow, &write).unwrap(), narrowed);
}

#[test]
fn the_first_that_differs_is_told_whole() {
    let mut outcome = Outcome::default();
    outcome.compare_write(same, "one", &some_write());
    outcome.compare_write(closing, "two", &some_write());
    outcome.compare_write(closing, "three", &some_write());
    assert_eq!((outcome.compared, outcome.different), (3, 2));
    let (name, told) = outcome.first.unwrap();
    assert_eq!(name, "two");
    let call = "HD 3 0x0 100 10\nST 7 0 0 0 0 9\ninto 30 bytes at 2\n25 bytes written\n";
    assert!(told.starts_with(call), "{told}");
}

/// The command's status, and what it printed on either stream.
fn command(arguments: &[&str]) -> (Option<i32>, String) {
    let output = Command::new(env!("CARGO_BIN_EXE_compare")).args(arguments).output().unwrap();
    let printed = [output.stdout, output.stderr].concat();
    (output.status.code(), String::from_utf8(printed).unwrap())
}

#[test]
fn writes_go_with_no_program_and_no_files() {
    for other in [&["--program", "cat"][..], &["--files", "."], &["--damaged"]] {
        let (status, output) =
            command(&[&["--writes", "--seed", "1", "--count", "5"], other].concat());
        assert_eq!(status, Some(2));
        assert!(output.contains("--writes goes with"), "{output}");
    }
    assert_eq!(command(&["--writes", "--seed", "1"]).0, Some(2));
}

#[test]
#[cfg(not(feature = "engine"))]
fn a_build_without_the_engine_says_how_to_get_it() {
    assert!(compare::writes::linked().is_none());
    let (status, output) = command(&["--writes", "--seed", "1", "--count", "5"]);
    assert_eq!(status, Some(2));
    assert!(output.contains("--features engine"), "{output}");
}

#[test]
#[cfg(feature = "engine")]
fn the_engine_writes_in_this_process() {
    let outcome = over(compare::writes::linked().unwrap(), 2000);
    assert_eq!((outcome.compared, outcome.different, outcome.first), (2000, 0, None));
    let run = command(&["--writes", "--seed", "3", "--count", "500", "--from", "100"]);
    assert_eq!(run, (Some(0), "500 writes compared, 0 differ\n".to_string()));
}
