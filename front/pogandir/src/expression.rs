//! Messages as a planner writes them: [p, q, r], {m}k, names, `s0.ticket`, `k(s0)`,
//! `t20`. What a name stands for is looked up, nothing is added to a table here.

use engine::{Role, Run, Stage};

use crate::forms;
use crate::message::{list, Message};
use crate::notation::Meaning;
use crate::script::Reader;
use crate::sentence::{stop, Stop};
use crate::tokens::{number, wrong, Cursor, Token, Wrong};
use crate::vocabulary::{Refusal, MOST_NONCE_OR_KEY};
use crate::walk::{Sent, Walk};

/// Deeper than any message that a table of 512 terms holds.
const DEEPEST: usize = 512;

/// Reads a message.
pub fn message(reader: &Reader, cursor: &mut Cursor) -> Result<Message, Stop> {
    nested(reader, cursor, 0)
}

fn nested(reader: &Reader, cursor: &mut Cursor, depth: usize) -> Result<Message, Stop> {
    let column = cursor.column();
    if depth > DEEPEST {
        return stop(column, "the message is deeper than a table of 512 terms holds");
    }
    let token = cursor.needs_any("a message")?;
    match token.text.as_str() {
        "[" => enclosed(reader, cursor, "]", depth),
        "{" => {
            let body = enclosed(reader, cursor, "}", depth)?;
            let key = nested(reader, cursor, depth + 1)?;
            Ok(Message::Encrypted(body.into(), key.into()))
        }
        "K" if cursor.takes("(") => {
            let principal = principal(reader, cursor)?;
            cursor.needs(")")?;
            Ok(Message::LongTermKey(principal))
        }
        name if cursor.peek() == Some("(") => of_run(reader, cursor, name, token.column),
        _ => word(reader, cursor, token),
    }
}

/// A list up to its bracket.
fn enclosed(
    reader: &Reader,
    cursor: &mut Cursor,
    close: &str,
    depth: usize,
) -> Result<Message, Stop> {
    let mut messages = vec![nested(reader, cursor, depth + 1)?];
    while cursor.takes(",") {
        messages.push(nested(reader, cursor, depth + 1 + messages.len())?);
    }
    cursor.needs(close)?;
    Ok(list(messages))
}

/// k(s0), N(r0), Ts(s0), Ta(r0): a value of a run.
fn of_run(
    reader: &Reader,
    cursor: &mut Cursor,
    name: &str,
    column: usize,
) -> Result<Message, Stop> {
    if !["k", "N", "Ts", "Ta"].contains(&name) {
        let known = "K(principal), k(run), N(run), Ts(run) and Ta(run) are known";
        return stop(column, format!("'{name}(' is not known; {known}"));
    }
    cursor.needs("(")?;
    let number = run(reader, cursor)?;
    cursor.needs(")")?;
    let row = reader.walk(column)?.tables.run(number).expect("the run is there");
    if !holds(&row, name) {
        let run = reader.walk(column)?.names.run(number);
        return stop(column, format!("{run} has no {name}: {}", why_not(&row)));
    }
    Ok(match name {
        "k" => Message::SessionKey(row.k.into()),
        "N" => Message::Nonce(number.into()),
        "Ts" => Message::Time(row.ts),
        _ => Message::Time(row.ta),
    })
}

/// Whether a run holds the value: K and Ts once it took them, Ta too unless it is
/// the server's. Each has a nonce.
fn holds(run: &Run, name: &str) -> bool {
    let taken = run.stage != Stage::Opened;
    name == "N" || taken && (name != "Ta" || run.role != Role::Server)
}

fn why_not(run: &Run) -> &'static str {
    match run.role {
        Role::Initiator => "it has not taken a reply",
        Role::Responder => "it has not taken a delivery",
        Role::Server => "a server run has none",
    }
}

fn word(reader: &Reader, cursor: &mut Cursor, token: &Token) -> Result<Message, Stop> {
    let Token { text, column } = token;
    if text == "term" {
        let most = reader.walk(*column)?.tables.realm.terms;
        let number = cursor.needs_number("the term's number", u16::MAX.into())?;
        if number as usize >= most {
            return stop(*column, format!("term {number} is not there; there are {most} terms"));
        }
        return Ok(Message::Present(number as u16));
    }
    if text == "now" {
        return Ok(Message::Time(reader.walk(*column)?.tables.realm.clock));
    }
    if let Some(atom) = atom(text, *column)? {
        return Ok(atom);
    }
    match text.split_once('.') {
        Some((name, part)) => part_of(reader, name, part, *column),
        None => named(reader, text, *column),
    }
}

/// t20, N64, k64, p1: a letter and a number. Names cannot be of this form.
pub fn atom(text: &str, column: usize) -> Result<Option<Message>, Wrong> {
    let Some((letter, digits)) = text.chars().next().map(|first| text.split_at(first.len_utf8()))
    else {
        return Ok(None);
    };
    if !digits.chars().all(|digit| digit.is_ascii_digit()) {
        return Ok(None);
    }
    let Some(value) = number(digits) else { return Ok(None) };
    let within = |most: u32| match value <= u128::from(most) {
        true => Ok(value as u32),
        false => wrong(column, format!("'{text}': 0 to {most} is allowed")),
    };
    let nonce_or_key = MOST_NONCE_OR_KEY.into();
    Ok(Some(match letter {
        "t" => Message::Time(within(u32::MAX)?),
        "N" => Message::Nonce(within(nonce_or_key)? as u16),
        "k" => Message::SessionKey(within(nonce_or_key)? as u16),
        "p" => Message::Principal(within(u8::MAX.into())? as u8),
        _ => return Ok(None),
    }))
}

fn named(reader: &Reader, name: &str, column: usize) -> Result<Message, Stop> {
    match meaning(reader, name, column, "a message")? {
        Meaning::Principal(number) => Ok(Message::Principal(number)),
        Meaning::Message(number) => Ok(Message::Present(number)),
        Meaning::Run(number) => {
            let sent = sent(reader.walk(column)?, number);
            stop(column, format!("{name} is a run; its messages are {}", listed(name, &sent)))
        }
    }
}

/// What a run sent, and its parts, by their names in the table of messages.
fn sent(walk: &Walk, run: u8) -> Vec<(&'static str, u16)> {
    let sent = walk.taken.iter().flat_map(|taken| &taken.sent).filter(|sent| sent.run == run);
    sent.flat_map(Sent::named).collect()
}

fn listed(name: &str, sent: &[(&'static str, u16)]) -> String {
    let names: Vec<String> = sent.iter().map(|(part, _)| format!("{name}.{part}")).collect();
    if names.is_empty() {
        "none yet".to_string()
    } else {
        names.join(", ")
    }
}

/// `s0.ticket`, or `s0.key`.
fn part_of(reader: &Reader, name: &str, part: &str, column: usize) -> Result<Message, Stop> {
    let Meaning::Run(number) = meaning(reader, name, column, "a run")? else {
        return stop(column, format!("'{name}' is no run, so it has no '{part}'"));
    };
    let walk = reader.walk(column)?;
    let row = walk.tables.run(number).expect("the run is there");
    if part == "key" && row.role == Role::Server {
        return Ok(Message::SessionKey(number.into()));
    }
    let sent = sent(walk, number);
    if let Some((_, term)) = sent.iter().find(|(name, _)| *name == part) {
        return Ok(Message::Present(*term));
    }
    if reader.faulty.contains(&format!("{name}.")) {
        return Err(Stop::Silent);
    }
    let exists = forms::is_sent(walk.tables.realm.rules, part);
    let what = if exists { "has not sent one" } else { "sends no such message" };
    let listed = listed(name, &sent);
    stop(column, format!("'{name}.{part}': {name} {what}; what it has sent: {listed}"))
}

/// What a name stands for.
pub fn meaning(reader: &Reader, name: &str, column: usize, wanted: &str) -> Result<Meaning, Stop> {
    if let Some((meaning, _)) = reader.meanings.get(name) {
        return Ok(*meaning);
    }
    if reader.faulty.contains(name) {
        return Err(Stop::Silent);
    }
    if let Some((line, number)) = reader.unopened.get(name) {
        let told = Refusal::told(*number);
        let message = format!("'{name}' is no run: line {line} got refusal {number}, {told}");
        return stop(column, message);
    }
    let known: Vec<&str> = reader.meanings.keys().map(String::as_str).collect();
    let other = known.iter().find(|other| other.eq_ignore_ascii_case(name));
    let hint = other.map_or(String::new(), |other| format!(" ('{other}' is one)"));
    let known = if known.is_empty() { "none".to_string() } else { known.join(", ") };
    stop(column, format!("'{name}' is not the name of {wanted}{hint}; names so far: {known}"))
}

/// A principal: a name, `server`, `p1` or `1`.
pub fn principal(reader: &Reader, cursor: &mut Cursor) -> Result<u8, Stop> {
    let token = cursor.needs_any("a principal")?;
    let Token { text, column } = token;
    if text == "server" {
        return Ok(0);
    }
    if let Some(Message::Principal(number)) = atom(text, *column)? {
        return Ok(number);
    }
    if number(text).is_some() {
        let mut own = Cursor::new(std::slice::from_ref(token));
        return Ok(own.needs_number("the principal's number", u8::MAX.into())? as u8);
    }
    match meaning(reader, text, *column, "a principal")? {
        Meaning::Principal(number) => Ok(number),
        Meaning::Run(_) => stop(*column, format!("'{text}' is a run and no principal")),
        Meaning::Message(_) => stop(*column, format!("'{text}' is a message and no principal")),
    }
}

/// A run: a name, or `run 2`.
pub fn run(reader: &Reader, cursor: &mut Cursor) -> Result<u8, Stop> {
    let token = cursor.needs_any("a run")?;
    let Token { text, column } = token;
    if text.eq_ignore_ascii_case("run") {
        let number = cursor.needs_number("the run's number", u8::MAX.into())?;
        let count = reader.walk(*column)?.tables.realm.runs;
        if number as usize >= count {
            return stop(*column, format!("run {number} is not there; there are {count} runs"));
        }
        return Ok(number as u8);
    }
    match meaning(reader, text, *column, "a run")? {
        Meaning::Run(number) => Ok(number),
        Meaning::Principal(_) => stop(*column, format!("'{text}' is a principal and no run")),
        Meaning::Message(_) => stop(*column, format!("'{text}' is a message and no run")),
    }
}
