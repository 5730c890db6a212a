//! What a command is given: a walk file or a text, from a path or from standard
//! input.

use std::fs;
use std::io::{self, Read};

use crate::vocabulary::MARKS;

#[derive(Clone, Debug, PartialEq, Eq)]
pub enum Content {
    Walk(Vec<u8>),
    Text(String),
}

/// A file, by the name that messages have for it.
#[derive(Clone, Debug, PartialEq, Eq)]
pub struct Source {
    pub name: String,
    pub content: Content,
}

/// What the caller says that the input is.
#[derive(Clone, Copy, Debug, PartialEq, Eq)]
pub enum Form {
    Walk,
    Text,
}

/// Standard input's path.
pub const STANDARD_INPUT: &str = "-";

/// Reads a path whole. Where the caller does not say what it is, the bytes do.
pub fn load(path: &str, form: Option<Form>) -> io::Result<Source> {
    let mut bytes = Vec::new();
    let name = if path == STANDARD_INPUT {
        io::stdin().lock().read_to_end(&mut bytes)?;
        "standard input"
    } else {
        bytes = fs::read(path)?;
        path
    };
    let form = form.unwrap_or_else(|| form_of(&bytes));
    Ok(Source { name: name.to_string(), content: content(bytes, form) })
}

fn content(bytes: Vec<u8>, form: Form) -> Content {
    match form {
        Form::Walk => Content::Walk(bytes),
        Form::Text => Content::Text(String::from_utf8_lossy(&bytes).into_owned()),
    }
}

/// A text has no control characters but those of lines. A header has: n is one.
fn form_of(bytes: &[u8]) -> Form {
    let is_plain = |c: char| !c.is_control() || "\t\r\n".contains(c);
    match std::str::from_utf8(bytes) {
        Ok(text) if text.chars().all(is_plain) => Form::Text,
        _ => Form::Walk,
    }
}

/// Whether bytes begin with a header's mark.
pub fn has_header_mark(bytes: &[u8]) -> bool {
    MARKS.iter().any(|mark| mark.is_header() && bytes.starts_with(mark.letters.as_bytes()))
}

/// Whether bytes begin as texts do that are not in UTF-8.
pub fn is_utf16(bytes: &[u8]) -> bool {
    bytes.starts_with(&[0xff, 0xfe]) || bytes.starts_with(&[0xfe, 0xff])
}
