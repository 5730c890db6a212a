//! Walks in words, with the answer that each record must get:
//!
//! ```text
//! HD n=3 Ls=100 La=10 => ok
//! ST 1 a=1 b=2        => ok 0 +5
//! raw 54              => file refused 3
//! end runs 1 wire 1 cache 0 clock 0
//! ```
#![allow(dead_code)]

use reference::listing;
use reference::marks::{format_of, mark};

/// An exchange of 1 and 2 up to the authenticator, and a responder run. Terms:
/// 0 principal 1, 1 principal 2, 2 nonce 0, 4 the request, 5 K, 6 time 0,
/// 9 the body for 1, 10 key of 1, 11 the part for 1, 12 [1, 0], 14 key of 2,
/// 15 the ticket, 16 the authenticator.
pub const EXCHANGE: &str = "
    HD n=5 Ls=100 La=10 => ok
    ST 1 a=1 b=2        => ok 0 +5
    ST 3 m=4            => ok 1 +11
    ST 4 run=0 m=11     => ok 0 +1
    ST 2 a=1 b=2        => ok 2 +0
    TM 5 L=15 R=16      => 17 new
";

fn field(record: &str, name: &str) -> u32 {
    let word =
        record.split_whitespace().find_map(|word| word.strip_prefix(name)?.strip_prefix('='));
    let Some(word) = word else { return 0 };
    let number = match word.strip_prefix("0x") {
        Some(digits) => u32::from_str_radix(digits, 16),
        None => word.parse(),
    };
    number.unwrap_or_else(|_| panic!("no number in {record}"))
}

/// The bytes of one record in words.
pub fn record(text: &str) -> Vec<u8> {
    let words: Vec<&str> = text.split_whitespace().collect();
    let leading = || words[1].parse::<u32>().unwrap_or_else(|_| panic!("no number in {text}"));
    let fields = match words[0] {
        "raw" => {
            return words[1..].iter().map(|word| u8::from_str_radix(word, 16).unwrap()).collect()
        }
        "TM" => vec![("", 1), ("L", 2), ("R", 2)],
        "ST" => vec![("", 1), ("run", 1), ("a", 1), ("b", 1), ("m", 2), ("t", 4)],
        other => header_fields(other).unwrap_or_else(|| panic!("no record: {text}")),
    };
    let mut bytes = words[0].as_bytes().to_vec();
    for (name, size) in fields {
        let value = if name.is_empty() { leading() } else { field(text, name) };
        bytes.extend(&value.to_be_bytes()[4 - size..]);
    }
    bytes
}

/// The fields of a header with this mark, and their sizes.
fn header_fields(letters: &str) -> Option<Vec<(&str, usize)>> {
    let format = format_of(mark(letters.as_bytes().try_into().ok()?))?;
    Some(vec![("n", 1), ("flags", format.flag_bytes), ("Ls", 4), ("La", 4)])
}

/// The lines of a text without comments and blank lines.
fn lines(text: &str) -> impl Iterator<Item = &str> {
    text.lines()
        .map(|line| line.split('#').next().unwrap_or("").trim())
        .filter(|line| !line.is_empty())
}

/// The walk file of a text; what is expected is left out.
pub fn walk(text: &str) -> Vec<u8> {
    let records = lines(text).filter(|line| !line.starts_with("end "));
    records.flat_map(|line| record(line.split("=>").next().unwrap())).collect()
}

/// Every record gets the answer that the text says. The last line is compared
/// if the text gives one.
pub fn check(text: &str) {
    let file = walk(text);
    let listing = listing(&file);
    assert!(listing.ends_with('\n'));
    let mut found: Vec<&str> = listing.lines().collect();
    let mut expected: Vec<String> = Vec::new();
    for (number, line) in lines(text).enumerate() {
        let Some((record, answer)) = line.split_once("=>") else {
            assert!(line.starts_with("end "), "no answer expected: {line}");
            expected.push(line.to_string());
            continue;
        };
        let mark = &record.trim()[..2];
        let mark =
            if answer.trim().starts_with("file") { String::new() } else { format!("{mark} ") };
        expected.push(format!("{number} {mark}{}", answer.trim()));
    }
    if !expected.last().is_some_and(|line| line.starts_with("end ")) {
        let end = found.pop_if(|line| line.starts_with("end "));
        assert!(end.is_some() || expected.len() == 1, "no last line");
    }
    assert_eq!(found, expected);
}

/// Checks a beginning with each of several endings.
pub fn check_each(beginning: &str, endings: &[&str]) {
    for ending in endings {
        check(&format!("{beginning}\n{ending}"));
    }
}

/// TM records of times that are otherwise not used, from this term number on.
pub fn times(first: usize, end: usize) -> String {
    (first..end).map(|number| format!("TM 1 L=9 R={number} => {number} new\n")).collect()
}

/// Step 2 so many times, from this run number on.
pub fn responders(first: usize, end: usize) -> String {
    (first..end).map(|number| format!("ST 2 a=1 b=2 => ok {number} +0\n")).collect()
}
