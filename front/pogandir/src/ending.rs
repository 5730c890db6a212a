//! What the listing's last line is expected to tell: `end => runs 4, cache 1`.

use crate::tokens::{wrong, Cursor, Token, Wrong};

/// What the listing's last line is expected to tell.
#[derive(Clone, Debug, Default, PartialEq, Eq)]
pub struct Ending {
    pub line: usize,
    /// A word of the line, `runs`, `wire`, `cache` or `clock`, and its number.
    pub counts: Vec<(String, u32)>,
}

/// Whether a line is `end =>` or `at the end =>`.
pub fn is_ending(body: &[Token]) -> bool {
    let words: Vec<String> = body.iter().map(|token| token.text.to_ascii_lowercase()).collect();
    [&["end"][..], &["at", "the", "end"]].iter().any(|line| words == *line)
}

impl Ending {
    pub fn read(line: usize, mut cursor: Cursor) -> Result<Ending, Wrong> {
        let mut ending = Ending { line, counts: Vec::new() };
        loop {
            let word = cursor.needs_any("runs, wire, cache or clock, and a number,")?;
            if !["runs", "wire", "cache", "clock"].contains(&word.text.as_str()) {
                return wrong(
                    word.column,
                    format!("'{}' is not told at the end; runs, wire, cache, clock are", word.text),
                );
            }
            ending.counts.push((word.text.clone(), cursor.needs_number(&word.text, u32::MAX)?));
            cursor.takes(",");
            if cursor.is_done() {
                return Ok(ending);
            }
        }
    }
}
