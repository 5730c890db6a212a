//! Seeded writes: a header and a list of records in words, a buffer, and an
//! offset in it or past it.

pub mod buffers;
pub mod cells;
pub mod coverage;
pub mod faults;
pub mod lists;
pub mod records;

use std::fmt;

use reference::file::Header;
use reference::marks::{format_of, letters};
use reference::writing::{file_bytes, write, RECORD_WORDS, STEP_MARK, TERM_MARK};

use crate::random::Random;

#[derive(Clone, Debug, PartialEq, Eq)]
pub struct Write {
    pub header: Header,
    pub words: Vec<u32>,
    pub buffer: Vec<u8>,
    pub at: usize,
}

impl Write {
    /// The reference's answer, a count or a refusal's number, and its buffer.
    pub fn answer(&self) -> (Result<usize, u8>, Vec<u8>) {
        let mut buffer = self.buffer.clone();
        let answer = write(&self.header, &self.words, &mut buffer, self.at);
        (answer.map_err(|refusal| refusal.number()), buffer)
    }
}

pub fn any_write(random: &mut Random) -> Write {
    let (header, words) = lists::any_list(random);
    let (buffer, at) = buffers::any_buffer(random, file_bytes(&header, &words).max(1));
    Write { header, words, buffer, at }
}

/// The call in words, a line a record, and the reference's answer.
impl fmt::Display for Write {
    fn fmt(&self, f: &mut fmt::Formatter) -> fmt::Result {
        let Header { mark, principals, flags, ticket_life, authenticator_life } = self.header;
        let mark = format_of(mark).map_or(format!("{mark:#x}"), |_| letters(mark));
        writeln!(f, "{mark} {principals} {flags:#x} {ticket_life} {authenticator_life}")?;
        for words in self.words.chunks(RECORD_WORDS) {
            let fields: Vec<String> = words[1..].iter().map(u32::to_string).collect();
            writeln!(f, "{} {}", record_mark(words[0]), fields.join(" "))?;
        }
        writeln!(f, "into {} bytes at {}", self.buffer.len(), self.at)?;
        match self.answer().0 {
            Ok(count) => writeln!(f, "{count} bytes written"),
            Err(number) => writeln!(f, "refused {number}"),
        }
    }
}

fn record_mark(word: u32) -> String {
    match word {
        TERM_MARK => "TM".into(),
        STEP_MARK => "ST".into(),
        other => format!("{other:#x}"),
    }
}
