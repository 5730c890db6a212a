//! From bytes to a header and records: the layout of a walk file and the
//! refusals 1, 2 and 3. Numbers are high byte first.

use crate::marks::{format_at, format_of, MIN_PRINCIPALS};
use crate::refusal::Refusal;
use crate::rules::Rules;

pub const MAX_FILE_BYTES: usize = 65_536;

pub const TERM_BYTES: usize = 7;
pub const STEP_BYTES: usize = 12;

/// The first record of a file: its mark, and what holds for the whole walk.
#[derive(Clone, Copy, Debug, PartialEq, Eq)]
pub struct Header {
    pub mark: u16,
    pub principals: u8,
    pub flags: u32,
    pub ticket_life: u32,
    pub authenticator_life: u32,
}

/// What a realm keeps of its header.
#[derive(Clone, Copy, Debug, PartialEq, Eq)]
pub struct Settings {
    /// n, the number of principals (the paper's parties).
    pub principals: u8,
    /// The number of the rule set.
    pub rules: u8,
    /// Bit p set marks principal p bad.
    pub flags: u32,
    /// Ls.
    pub ticket_life: u32,
    /// La.
    pub authenticator_life: u32,
}

impl Header {
    /// The rule set is the mark's; an unknown mark gets the first.
    pub fn settings(&self) -> Settings {
        let Header { mark, principals, flags, ticket_life, authenticator_life } = *self;
        let rules = format_of(mark).map_or(Rules::Apart, |format| format.rules).number();
        Settings { principals, rules, flags, ticket_life, authenticator_life }
    }

    /// Refusal 1 for another mark, then 2 by the mark's limit.
    pub fn check(self) -> Result<Header, Refusal> {
        let format = format_of(self.mark).ok_or(Refusal::NoHeader)?;
        if !self.settings().fit(format.most_principals) {
            return Err(Refusal::BadHeader);
        }
        Ok(self)
    }
}

impl Settings {
    pub fn is_bad(&self, principal: u8) -> bool {
        self.flags >> principal & 1 == 1
    }

    /// The rule set that they name: "tables naming no such set meet 10".
    pub fn rule_set(&self) -> Result<Rules, Refusal> {
        Rules::numbered(self.rules).ok_or(Refusal::BrokenTables)
    }

    /// Can a realm of at most so many principals have them? Condition by
    /// condition as refusal 2 has them.
    pub fn fit(&self, most_principals: u8) -> bool {
        let n = self.principals;
        let n_in_range = (MIN_PRINCIPALS..=most_principals).contains(&n);
        let flag_on_server = self.flags & 1 == 1;
        // In 64 bits, since n can be 32.
        let flag_above = n_in_range && u64::from(self.flags) >> n != 0;
        let life_of_0 = self.ticket_life == 0 || self.authenticator_life == 0;
        n_in_range && !flag_on_server && !flag_above && !life_of_0
    }
}

/// A whole record after the header, its fields not yet looked at.
#[derive(Clone, Copy, Debug, PartialEq, Eq)]
pub enum Record {
    Term(TermRecord),
    Step(StepRecord),
}

/// The record TM.
#[derive(Clone, Copy, Debug, Default, PartialEq, Eq)]
pub struct TermRecord {
    pub kind: u8,
    pub left: u16,
    pub right: u16,
}

/// The record ST.
#[derive(Clone, Copy, Debug, Default, PartialEq, Eq)]
pub struct StepRecord {
    pub step: u8,
    pub run: u8,
    pub a: u8,
    pub b: u8,
    pub message: u16,
    pub time: u32,
}

impl Record {
    pub fn mark(&self) -> &'static str {
        match self {
            Record::Term(_) => "TM",
            Record::Step(_) => "ST",
        }
    }
}

/// The header of a file and the bytes after it; refusals 1 and 2.
pub fn read_header(file: &[u8]) -> Result<(Header, &[u8]), Refusal> {
    let (header, rest) = header_values(file)?;
    Ok((header.check()?, rest))
}

/// The same, with values that are not yet looked at; refusal 1.
pub fn header_values(file: &[u8]) -> Result<(Header, &[u8]), Refusal> {
    let format = format_at(file).ok_or(Refusal::NoHeader)?;
    if file.len() > MAX_FILE_BYTES || file.len() < format.header_bytes() {
        return Err(Refusal::NoHeader);
    }
    let (bytes, rest) = file.split_at(format.header_bytes());
    let (flags, lives) = bytes[3..].split_at(format.flag_bytes);
    let header = Header {
        mark: format.mark,
        principals: bytes[2],
        flags: number(flags),
        ticket_life: number(&lives[..4]),
        authenticator_life: number(&lives[4..]),
    };
    Ok((header, rest))
}

/// The next record and the bytes after it; refusal 3. `None` at the end.
pub fn read_record(bytes: &[u8]) -> Option<Result<(Record, &[u8]), Refusal>> {
    if bytes.is_empty() {
        return None;
    }
    let length = match bytes {
        [b'T', b'M', ..] => TERM_BYTES,
        [b'S', b'T', ..] => STEP_BYTES,
        _ => return Some(Err(Refusal::BrokenRecord)),
    };
    if bytes.len() < length {
        return Some(Err(Refusal::BrokenRecord));
    }
    let (record, rest) = bytes.split_at(length);
    let record = if length == TERM_BYTES { term(record) } else { step(record) };
    Some(Ok((record, rest)))
}

/// The records after the header as far as they can be read, and whether all can.
pub fn read_records(mut bytes: &[u8]) -> (Vec<Record>, bool) {
    let mut records = Vec::new();
    while let Some(read) = read_record(bytes) {
        let Ok((record, rest)) = read else { return (records, false) };
        records.push(record);
        bytes = rest;
    }
    (records, true)
}

fn term(bytes: &[u8]) -> Record {
    Record::Term(TermRecord {
        kind: bytes[2],
        left: number(&bytes[3..5]) as u16,
        right: number(&bytes[5..7]) as u16,
    })
}

fn step(bytes: &[u8]) -> Record {
    Record::Step(StepRecord {
        step: bytes[2],
        run: bytes[3],
        a: bytes[4],
        b: bytes[5],
        message: number(&bytes[6..8]) as u16,
        time: number(&bytes[8..12]),
    })
}

/// A number of at most four bytes, high byte first.
fn number(bytes: &[u8]) -> u32 {
    bytes.iter().fold(0, |sum, byte| sum * 256 + u32::from(*byte))
}
