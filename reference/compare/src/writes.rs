//! Runs another writer and the reference over the same writes.

use generator::writes::Write;
use reference::file::Header;

use crate::Outcome;

/// A writer of walks: the count, or a refusal's number.
pub type Writer = fn(&Header, &[u32], &mut [u8], usize) -> Result<usize, u8>;

/// A longer write is told by its number alone.
const LINES_TOLD: usize = 24;

/// The proved engine's writer; none in a build without it.
#[cfg(feature = "engine")]
pub fn linked() -> Option<Writer> {
    Some(lent::write)
}

#[cfg(not(feature = "engine"))]
pub fn linked() -> Option<Writer> {
    None
}

/// How the writer's answer or buffer differs from the reference's.
pub fn difference(writer: Writer, write: &Write) -> Option<String> {
    let (expected, bytes) = write.answer();
    let mut buffer = write.buffer.clone();
    let answer = writer(&write.header, &write.words, &mut buffer, write.at);
    if answer != expected {
        return Some(beside("answers", &told(expected), &told(answer)));
    }
    let at = (0..bytes.len()).find(|at| buffer[*at] != bytes[*at])?;
    let [before, reference, engine] =
        [&write.buffer, &bytes, &buffer].map(|bytes| format!("{:#04x}", bytes[at]));
    let place = format!("{}, byte {at} of the buffer was {before}", told(expected));
    Some(beside(&place, &reference, &engine))
}

fn beside(what: &str, reference: &str, engine: &str) -> String {
    format!("{what}\n  reference: {reference}\n  engine:    {engine}")
}

fn told(answer: Result<usize, u8>) -> String {
    match answer {
        Ok(count) => format!("{count} bytes written"),
        Err(number) => format!("refused {number}"),
    }
}

impl Outcome {
    /// Compares one more write.
    pub fn compare_write(&mut self, writer: Writer, name: &str, write: &Write) {
        let difference = difference(writer, write).map(|difference| {
            let call = write.to_string();
            let call = if call.lines().count() > LINES_TOLD { String::new() } else { call };
            call + &difference
        });
        self.add(name, difference);
    }
}
