//! The sentence that opens a realm.

use engine::Header;

use crate::expression::principal;
use crate::script::{Done, Reader, State};
use crate::sentence::{stop, Stop};
use crate::tokens::Cursor;
use crate::vocabulary::{Mark, Use, APART, MARKS};

/// A realm as an example, for messages.
pub const EXAMPLE: &str = "realm 3 principals, ticket life 100, authenticator life 10";

/// realm [H5] 3 principals, ticket life 100, authenticator life 10, bad p1 and p2
pub fn realm(reader: &mut Reader, mut cursor: Cursor) -> Result<Done, Stop> {
    let column = cursor.column();
    if !matches!(reader.state, State::Start) {
        return stop(column, "a walk has one realm, and this one has begun");
    }
    let mark = cursor.peek().and_then(Mark::named).filter(|mark| mark.is_header());
    if mark.is_some() {
        cursor.advance();
    }
    let n = cursor.needs_number("the number of principals", u8::MAX.into())? as u8;
    cursor.needs("principals")?;
    let mut clauses = Clauses::default();
    while !cursor.is_done() {
        cursor.needs(",")?;
        clauses.read(reader, &mut cursor)?;
    }
    let life = |life: Option<u32>, what: &str| match life {
        Some(life) => Ok(life),
        None => stop(column, format!("the realm needs its {what}, as in: {EXAMPLE}")),
    };
    Ok(reader.open(&Header {
        mark: mark.unwrap_or_else(|| mark_for(n)).number(),
        n,
        flags: clauses.flags.unwrap_or(0),
        ticket_life: life(clauses.ticket_life, "ticket life")?,
        authenticator_life: life(clauses.authenticator_life, "authenticator life")?,
    }))
}

/// What the clauses behind the number of principals say.
#[derive(Default)]
struct Clauses {
    ticket_life: Option<u32>,
    authenticator_life: Option<u32>,
    flags: Option<u32>,
}

const CLAUSES: &str = "ticket life 100, authenticator life 10, bad NAME and NAME";

/// The first mark of document 01's rule set that allows so many principals, or else
/// its last.
fn mark_for(n: u8) -> &'static Mark {
    let mut marks = MARKS.iter().filter(|mark| mark.rules() == Some(APART));
    let allows = |mark: &&Mark| matches!(mark.purpose, Use::Header { most, .. } if n <= most);
    marks.clone().find(allows).or_else(|| marks.next_back()).expect("there is a header")
}

impl Clauses {
    fn read(&mut self, reader: &Reader, cursor: &mut Cursor) -> Result<(), Stop> {
        let column = cursor.column();
        let (place, value) = if cursor.takes("ticket") {
            cursor.needs("life")?;
            (&mut self.ticket_life, cursor.needs_number("the ticket's life", u32::MAX)?)
        } else if cursor.takes("authenticator") {
            cursor.needs("life")?;
            (
                &mut self.authenticator_life,
                cursor.needs_number("the authenticator's life", u32::MAX)?,
            )
        } else if cursor.takes("bad") {
            (&mut self.flags, bad(reader, cursor)?)
        } else {
            return stop(column, format!("a clause of the realm is expected here: {CLAUSES}"));
        };
        match place.replace(value) {
            None => Ok(()),
            Some(_) => stop(column, "this clause stands twice"),
        }
    }
}

/// The flags of principals: `panel and heater`, or `panel, heater`.
fn bad(reader: &Reader, cursor: &mut Cursor) -> Result<u32, Stop> {
    let mut flags = 0;
    loop {
        let column = cursor.column();
        let number = principal(reader, cursor)?;
        if number >= 32 {
            return stop(column, format!("principal {number} is not there: flags go up to 31"));
        }
        flags |= 1 << number;
        let next_clause = cursor.second().is_some_and(|word| {
            ["ticket", "authenticator", "bad"].contains(&word.to_ascii_lowercase().as_str())
        });
        if next_clause || !(cursor.takes("and") || cursor.takes(",")) {
            return Ok(flags);
        }
    }
}
