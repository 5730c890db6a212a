//! The writer: a header and a list of records into the bytes of a walk file,
//! at an offset inside the caller's buffer.
//!
//! A record is handed over as seven words: its mark as a number, then its
//! fields in the order of the file. The three words behind the fields of a TM
//! record are not read.

use crate::fields::{StepFields, TermFields};
use crate::file::{read_header, read_records, Header, Record, StepRecord, TermRecord};
use crate::file::{MAX_FILE_BYTES, STEP_BYTES, TERM_BYTES};
use crate::marks::{format_of, Format};
use crate::refusal::Refusal;

/// The words of a record.
pub const RECORD_WORDS: usize = 7;
/// The marks TM and ST, high byte first.
pub const TERM_MARK: u32 = 0x544d;
pub const STEP_MARK: u32 = 0x5354;

/// Writes the file and gives the number of its bytes. A refusal leaves every
/// byte of the buffer as it was.
pub fn write(
    header: &Header,
    words: &[u32],
    buffer: &mut [u8],
    at: usize,
) -> Result<usize, Refusal> {
    let file = file(header, words)?;
    let rest = buffer.get_mut(at..).ok_or(Refusal::NoRoomInBuffer)?;
    let place = rest.get_mut(..file.len()).ok_or(Refusal::NoRoomInBuffer)?;
    place.copy_from_slice(&file);
    Ok(file.len())
}

/// The bytes of the file; refusals 1 and 2, then 3 to 6 record by record.
pub fn file(header: &Header, words: &[u32]) -> Result<Vec<u8>, Refusal> {
    if file_bytes(header, words) > MAX_FILE_BYTES {
        return Err(Refusal::NoHeader);
    }
    let mut file = header_bytes(&header.check()?);
    for words in words.chunks(RECORD_WORDS) {
        put(&mut file, &record(header.principals, words)?);
    }
    Ok(file)
}

/// How long the file would be. A header or a record with an unknown mark has no
/// length, nor has a last record that is cut short.
pub fn file_bytes(header: &Header, words: &[u32]) -> usize {
    let bytes = |words: &[u32]| match words[0] {
        TERM_MARK => TERM_BYTES,
        STEP_MARK => STEP_BYTES,
        _ => 0,
    };
    let header_bytes = format_of(header.mark).map_or(0, Format::header_bytes);
    header_bytes + words.chunks_exact(RECORD_WORDS).map(bytes).sum::<usize>()
}

/// The record that the words tell of; refusals 3 to 6.
fn record(principals: u8, words: &[u32]) -> Result<Record, Refusal> {
    match *words {
        [TERM_MARK, kind, left, right, _, _, _] => {
            let fields = TermFields { kind, left, right };
            fields.check(principals)?;
            Ok(Record::Term(term(&fields)))
        }
        [STEP_MARK, step, run, a, b, message, time] => {
            let fields = StepFields { step, run, a, b, message, time };
            fields.check(principals)?;
            Ok(Record::Step(self::step(&fields)))
        }
        _ => Err(Refusal::BrokenRecord),
    }
}

/// Fields that were checked fit their places in the file.
fn term(fields: &TermFields) -> TermRecord {
    let (left, right) = (fields.left as u16, fields.right as u16);
    TermRecord { kind: fields.kind as u8, left, right }
}

fn step(fields: &StepFields) -> StepRecord {
    StepRecord {
        step: fields.step as u8,
        run: fields.run as u8,
        a: fields.a as u8,
        b: fields.b as u8,
        message: fields.message as u16,
        time: fields.time,
    }
}

/// The bytes of a header: none of one with an unknown mark. Flags that its format
/// has no room for are left out.
pub fn header_bytes(header: &Header) -> Vec<u8> {
    let Some(format) = format_of(header.mark) else { return Vec::new() };
    let mut bytes = header.mark.to_be_bytes().to_vec();
    bytes.push(header.principals);
    bytes.extend(&header.flags.to_be_bytes()[4 - format.flag_bytes..]);
    bytes.extend(header.ticket_life.to_be_bytes());
    bytes.extend(header.authenticator_life.to_be_bytes());
    bytes
}

pub fn record_bytes(record: &Record) -> Vec<u8> {
    let mut bytes = Vec::new();
    put(&mut bytes, record);
    bytes
}

/// Puts a record behind the bytes.
fn put(bytes: &mut Vec<u8>, record: &Record) {
    bytes.extend(record.mark().as_bytes());
    match record {
        Record::Term(term) => {
            bytes.push(term.kind);
            bytes.extend(term.left.to_be_bytes());
            bytes.extend(term.right.to_be_bytes());
        }
        Record::Step(step) => {
            bytes.extend([step.step, step.run, step.a, step.b]);
            bytes.extend(step.message.to_be_bytes());
            bytes.extend(step.time.to_be_bytes());
        }
    }
}

/// A file again, from its header and records; refusals 1 to 6, those that depend
/// on the walk apart.
pub fn rewrite(bytes: &[u8]) -> Result<Vec<u8>, Refusal> {
    let (header, rest) = read_header(bytes)?;
    let (records, whole) = read_records(rest);
    if !whole {
        return Err(Refusal::BrokenRecord);
    }
    file(&header, &words(&records))
}

/// The words of records that were read.
pub fn words(records: &[Record]) -> Vec<u32> {
    records.iter().flat_map(record_words).collect()
}

fn record_words(record: &Record) -> [u32; RECORD_WORDS] {
    match record {
        Record::Term(record) => {
            let TermFields { kind, left, right } = record.into();
            [TERM_MARK, kind, left, right, 0, 0, 0]
        }
        Record::Step(record) => {
            let StepFields { step, run, a, b, message, time } = record.into();
            [STEP_MARK, step, run, a, b, message, time]
        }
    }
}
