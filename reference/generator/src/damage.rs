//! Bytes that are no good walk: damaged files, bad headers, random records and
//! random bytes.

use reference::file::{Record, StepRecord, TermRecord, MAX_FILE_BYTES};
use reference::marks::FORMATS;
use reference::writing::{header_bytes, record_bytes};

use crate::headers::{any_header, spoilt_header, unknown_mark};
use crate::random::Random;

/// Up to four damages: a byte changed, taken out or put in, the end cut off, a
/// stretch doubled, a mark put in the middle, another header's mark at the front.
pub fn damage(random: &mut Random, mut bytes: Vec<u8>) -> Vec<u8> {
    for _ in 0..random.between(1, 4) {
        let at = random.below(bytes.len().max(1)).min(bytes.len());
        if bytes.is_empty() {
            break;
        }
        match random.below(9) {
            0 | 1 => bytes[at] = random.byte(),
            2 => bytes[at] ^= 1 << random.below(8),
            3 => drop(bytes.remove(at)),
            4 => bytes.insert(at, random.byte()),
            5 => bytes.truncate(bytes.len() - random.below(bytes.len().min(14))),
            6 => {
                let end = (at + random.below(40)).min(bytes.len());
                let stretch = bytes[at..end].to_vec();
                bytes.splice(at..at, stretch);
            }
            7 => {
                let marks = [header_mark(random, b""), *b"TM", *b"ST", *b"XX"];
                let mark = random.pick(&marks);
                bytes.splice(at..(at + 2).min(bytes.len()), mark);
            }
            _ => {
                let mark = header_mark(random, &bytes);
                bytes.splice(..bytes.len().min(2), mark);
            }
        }
    }
    bytes
}

/// A header's mark that is not the one at the front.
fn header_mark(random: &mut Random, bytes: &[u8]) -> [u8; 2] {
    let marks = FORMATS.map(|format| format.mark.to_be_bytes());
    let others: Vec<[u8; 2]> = marks.into_iter().filter(|mark| !bytes.starts_with(mark)).collect();
    random.pick(&others)
}

/// A good header, then records whose fields are small or of any value, and at
/// times a broken end.
pub fn random_records(random: &mut Random) -> Vec<u8> {
    let mut bytes = header_bytes(&any_header(random));
    for _ in 0..random.between(0, 30) {
        let any = random.one_in(6);
        let mut field = |limit: u64| if any { random.number() } else { random.number() % limit };
        let term =
            TermRecord { kind: field(8) as u8, left: field(12) as u16, right: field(3) as u16 };
        let step = StepRecord {
            step: field(12) as u8,
            run: field(3) as u8,
            a: field(4) as u8,
            b: field(4) as u8,
            message: field(14) as u16,
            time: field(2) as u32,
        };
        let record = if random.one_in(2) { Record::Term(term) } else { Record::Step(step) };
        bytes.extend(record_bytes(&record));
    }
    match random.below(6) {
        0 => bytes.extend(header_bytes(&any_header(random))),
        1 => bytes.push(random.pick(b"TSHX")),
        2 => bytes.extend(random.pick(&[
            b"TM\x05\0\0\0".as_slice(),
            b"TM",
            b"ST",
            b"ST\x01\0\x01\x02\0\0\0\0\0",
        ])),
        _ => {}
    }
    bytes
}

/// A file with a spoilt header, or one that is not whole.
pub fn bad_header(random: &mut Random) -> Vec<u8> {
    let mut bytes = header_bytes(&spoilt_header(random));
    match random.below(6) {
        0 => {
            let any = 1 + random.below(bytes.len());
            bytes.truncate(bytes.len() - random.pick(&[1, 2, any, any]));
        }
        1 => {
            let marks = [header_mark(random, &bytes), unknown_mark(random).to_be_bytes()];
            bytes[..2].copy_from_slice(&random.pick(&marks));
        }
        2 => bytes.resize(random.pick(&[MAX_FILE_BYTES, MAX_FILE_BYTES + 1]), 0),
        _ => bytes
            .extend(record_bytes(&Record::Step(StepRecord { step: 7, ..StepRecord::default() }))),
    }
    bytes
}

pub fn random_bytes(random: &mut Random) -> Vec<u8> {
    if random.one_in(6) {
        return Vec::new();
    }
    let mut bytes = if random.one_in(2) { header_bytes(&any_header(random)) } else { Vec::new() };
    for _ in 0..random.below(60) {
        bytes.push(random.byte());
    }
    bytes
}
