//! Lists of records in words: those of walk files, short ones aimed at the
//! ends of the ranges, and long ones.

use reference::file::{read_header, read_records, Header};
use reference::file::{MAX_FILE_BYTES, STEP_BYTES, TERM_BYTES};
use reference::marks::{format_at, Format};
use reference::writing::{file, header_bytes, words, RECORD_WORDS, TERM_MARK};

use super::records::{any_mark, good, good_step, good_term, spoil, Words};
use crate::headers::{any_header, spoilt_header, unknown_mark};
use crate::random::Random;
use crate::scenes::{any_damaged_file, any_file};

pub fn any_list(random: &mut Random) -> (Header, Vec<u32>) {
    let (header, mut words) = match random.below(100) {
        0..=14 => of_file(random, any_file),
        15..=19 => of_file(random, any_damaged_file),
        20..=29 => without_refused(of_file(random, any_file)),
        30..=93 => short(random),
        94..=96 => long(random),
        _ => (any_header(random), Vec::new()),
    };
    if random.one_in(12) {
        replace_some(random, &header, &mut words);
    }
    if random.one_in(16) {
        break_end(random, &mut words);
    }
    let mut header = if random.one_in(8) { spoilt_header(random) } else { header };
    if random.one_in(30) {
        header.mark = unknown_mark(random);
    }
    (header, words)
}

/// The records of a file as far as they are read, with its own header if it has
/// one.
fn of_file(random: &mut Random, make: fn(&mut Random) -> Vec<u8>) -> (Header, Vec<u32>) {
    let file = make(&mut Random::new(random.number(), 0));
    match read_header(&file) {
        Ok((header, rest)) => (header, words(&read_records(rest).0)),
        Err(_) => {
            let header_bytes = format_at(&file).map_or(0, Format::header_bytes);
            let rest = file.get(header_bytes..).unwrap_or(&[]);
            (any_header(random), words(&read_records(rest).0))
        }
    }
}

/// The records that are written when each is alone.
fn without_refused((header, words): (Header, Vec<u32>)) -> (Header, Vec<u32>) {
    let alone = words.chunks(RECORD_WORDS).filter(|words| file(&header, words).is_ok());
    (header, alone.flatten().copied().collect())
}

/// Some good records; in most lists one or two of them are spoilt.
fn short(random: &mut Random) -> (Header, Vec<u32>) {
    let header = any_header(random);
    let n = u32::from(header.principals);
    let count = random.between(1, 6);
    let mut records: Vec<Words> = (0..count).map(|_| good(random, n)).collect();
    for _ in 0..random.pick(&[0, 0, 1, 1, 1, 1, 2]) {
        let at = random.below(records.len());
        for _ in 0..random.pick(&[1, 1, 1, 2]) {
            spoil(random, n, &mut records[at]);
        }
    }
    (header, records.concat())
}

/// A list whose file has a length around the longest, or far above it.
fn long(random: &mut Random) -> (Header, Vec<u32>) {
    let header = any_header(random);
    let n = u32::from(header.principals);
    let most = MAX_FILE_BYTES;
    let length = random.pick(&[most, most, most, most - 1, most + 1, most + 1, 2 * most]);
    let mut left = length - header_bytes(&header).len();
    let mut records = Vec::new();
    // 7 and 12 have no common factor, so some number of TM records makes the
    // rest a whole number of ST records.
    while !left.is_multiple_of(STEP_BYTES) {
        let kind = random.between(0, 6);
        records.push(good_term(random, n, kind));
        left -= TERM_BYTES;
    }
    for _ in 0..left / STEP_BYTES {
        let step = random.between(1, 10);
        records.push(good_step(random, n, step));
    }
    if random.one_in(3) {
        let at = random.below(records.len());
        spoil(random, n, &mut records[at]);
    }
    let mut words = records.concat();
    if random.one_in(4) {
        break_end(random, &mut words);
    }
    (header, words)
}

/// One word or several become an end of some range, or the one beside it.
fn replace_some(random: &mut Random, header: &Header, words: &mut [u32]) {
    let n = u32::from(header.principals);
    for _ in 0..random.between(1, 4) {
        let any = random.number() as u32;
        let ends = [0, 1, 6, 7, 10, 11, 95, 96, n - 1, n, 255, 256, 65_535, 65_536, u32::MAX];
        let value = random.pick(&[&ends[..], &[any]].concat());
        if !words.is_empty() {
            let at = random.below(words.len());
            words[at] = value;
        }
    }
}

/// A record of another mark at the end, or one that is cut short.
fn break_end(random: &mut Random, words: &mut Vec<u32>) {
    let mark = if random.one_in(2) { any_mark(random) } else { TERM_MARK };
    words.extend([mark, random.between(0, 8), 0, 0, 0, 0, 0]);
    if random.one_in(2) {
        words.truncate(words.len() - random.between(1, 6) as usize);
    }
}
