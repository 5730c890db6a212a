//! What a line is expected to give, behind `=>`. A line that does not say is
//! expected to be accepted.

use engine::Answer;

use crate::answers;
use crate::tokens::{number, wrong, Cursor, Wrong};
use crate::vocabulary::Refusal;

/// What came of a line's record.
#[derive(Clone, Copy, Debug, PartialEq, Eq)]
pub enum Outcome {
    /// A header that opened the realm.
    Opened,
    Answered(Answer),
    /// A refusal that ended the reading.
    Ended(u8),
    /// Reading had ended before.
    Unread,
}

impl Outcome {
    /// As the listing has it.
    pub fn shown(self) -> String {
        match self {
            Outcome::Opened => "ok".to_string(),
            Outcome::Answered(answer) => answers::listed(answer),
            Outcome::Ended(number) => format!("refused {number}"),
            Outcome::Unread => "not read".to_string(),
        }
    }

    pub fn refusal(self) -> Option<u8> {
        match self {
            Outcome::Answered(Answer::Refused(number)) | Outcome::Ended(number) => Some(number),
            _ => None,
        }
    }
}

#[derive(Clone, Copy, Debug, PartialEq, Eq)]
pub enum Expected {
    Any,
    /// Accepted; where they are said, with this run and so many terms added.
    Accepted {
        run: Option<u32>,
        added: Option<u32>,
    },
    Refused(Option<u32>),
    /// A term, with this number where it is said, that was new or old.
    Term {
        number: Option<u32>,
        new: bool,
    },
}

/// What a line without `=>` is expected to give.
pub const ACCEPTED: Expected = Expected::Accepted { run: None, added: None };

const ALLOWED: &str = "ok, refused, refused 15, new, old, any; ok +5, ok 0 +5 and 17 new tell more";

/// Reads what stands behind `=>`.
pub fn read(mut cursor: Cursor) -> Result<Expected, Wrong> {
    let first = cursor.needs_any("what is expected (ok, refused, refused 15, new, old, any)")?;
    let expected = match first.text.to_ascii_lowercase().as_str() {
        "any" => Expected::Any,
        "ok" => accepted(&mut cursor)?,
        "refused" => refused(&mut cursor)?,
        "new" => Expected::Term { number: None, new: true },
        "old" => Expected::Term { number: None, new: false },
        text => match number(text) {
            Some(number) => match u32::try_from(number) {
                Ok(number) => numbered(&mut cursor, number)?,
                Err(_) => return wrong(first.column, format!("{text} is too large")),
            },
            None => {
                return wrong(first.column, format!("'{text}' is no answer; allowed: {ALLOWED}"))
            }
        },
    };
    cursor.needs_end()?;
    Ok(expected)
}

/// The next token as a number, if it is one.
fn optional(cursor: &mut Cursor) -> Result<Option<u32>, Wrong> {
    match cursor.peek().and_then(number) {
        Some(_) => cursor.needs_number("the number", u32::MAX).map(Some),
        None => Ok(None),
    }
}

/// A number behind `refused` has to be one that there is.
fn refused(cursor: &mut Cursor) -> Result<Expected, Wrong> {
    let column = cursor.column();
    let number = optional(cursor)?;
    let is_one = |number: u32| u8::try_from(number).is_ok_and(|n| Refusal::of(n).is_some());
    match number.filter(|&number| !is_one(number)) {
        None => Ok(Expected::Refused(number)),
        Some(other) => {
            wrong(column, format!("there is no refusal {other}; docs/MODEL.md has them"))
        }
    }
}

fn accepted(cursor: &mut Cursor) -> Result<Expected, Wrong> {
    if cursor.takes("-") {
        return added(cursor).map(|added| Expected::Accepted { run: None, added });
    }
    let run = optional(cursor)?;
    added(cursor).map(|added| Expected::Accepted { run, added })
}

/// `+5`, if it is there.
fn added(cursor: &mut Cursor) -> Result<Option<u32>, Wrong> {
    let column = cursor.column();
    let Some(text) = cursor.peek() else { return Ok(None) };
    let digits = text.strip_prefix('+').and_then(number);
    let Some(count) = digits.and_then(|count| u32::try_from(count).ok()) else {
        return wrong(column, format!("'{text}' is not of the form +5"));
    };
    cursor.advance();
    Ok(Some(count))
}

fn numbered(cursor: &mut Cursor, number: u32) -> Result<Expected, Wrong> {
    let new = cursor.takes("new");
    if !new {
        cursor.needs("old")?;
    }
    Ok(Expected::Term { number: Some(number), new })
}

fn said(expected: Option<u32>, number: u16) -> bool {
    expected.is_none_or(|expected| expected == u32::from(number))
}

impl Expected {
    pub fn holds(self, outcome: Outcome) -> bool {
        match (self, outcome) {
            (Expected::Any, _) => true,
            (Expected::Refused(number), _) => {
                outcome.refusal().is_some_and(|refusal| said(number, refusal.into()))
            }
            (Expected::Accepted { run: None, added: None }, Outcome::Opened) => true,
            (Expected::Accepted { run, added }, Outcome::Answered(answer)) => {
                let is_run = match answer {
                    Answer::Refused(_) => return false,
                    Answer::Ok { run: Some(of), .. } => said(run, of.into()),
                    _ => run.is_none(),
                };
                is_run && said(added, answer.added())
            }
            (Expected::Term { number, new }, Outcome::Answered(answer)) => match answer {
                Answer::New(term) => new && said(number, term),
                Answer::Old(term) => !new && said(number, term),
                _ => false,
            },
            _ => false,
        }
    }

    pub fn shown(self) -> String {
        let tail = |added: Option<u32>| added.map_or(String::new(), |added| format!(" +{added}"));
        match self {
            Expected::Any => "any".to_string(),
            Expected::Accepted { run: Some(run), added } => format!("ok {run}{}", tail(added)),
            Expected::Accepted { run: None, added } => format!("ok{}", tail(added)),
            Expected::Refused(None) => "refused".to_string(),
            Expected::Refused(Some(number)) => format!("refused {number}"),
            Expected::Term { number, new } => {
                let number = number.map_or(String::new(), |number| format!("{number} "));
                format!("{number}{}", if new { "new" } else { "old" })
            }
        }
    }
}
