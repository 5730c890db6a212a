//! Sentences: `r0 = panel asks cabinet`, `c0 takes [s0.ticket, r0.authenticator]`.
//! Each is one step, with the terms before it that its message needs and that are
//! not there yet. Numbers of runs and terms are what the engine answers.

use engine::{Answer, Call, Role, Stage};

use crate::expect::Outcome;
use crate::expression::{atom, meaning, message, principal, run};
use crate::message::Message;
use crate::notation::Meaning;
use crate::realm::{realm, EXAMPLE};
use crate::script::{Done, Reader, State};
use crate::tokens::{number, wrong, Cursor, Token, Wrong};
use crate::vocabulary::*;
use crate::walk::Walk;

/// Why a sentence was not performed.
pub enum Stop {
    Wrong(Wrong),
    /// It speaks of a name that a line with a fault should have given.
    Silent,
    /// A term that its message needs was refused.
    Refused(Done),
}

/// At a column, this is wrong.
pub fn stop<T>(column: usize, message: impl Into<String>) -> Result<T, Stop> {
    Ok(wrong(column, message)?)
}

impl From<Wrong> for Stop {
    fn from(wrong: Wrong) -> Stop {
        Stop::Wrong(wrong)
    }
}

const SENTENCES: &str = "realm .., NAME = 1, NAME = P asks Q, NAME = Q waits for P, \
    NAME = server answers RUN, RUN takes MESSAGE, clock 20, P forgets, leak RUN, \
    intruder derives MESSAGE, term MESSAGE, NAME = MESSAGE, end => ..";

/// Words that begin sentences or stand for something, and so are no names.
const TAKEN: [&str; 13] = [
    "server", "now", "realm", "clock", "leak", "term", "intruder", "run", "the", "end", "at",
    "raw", "key",
];

/// The same, with the capitals that they have.
const LETTERS: [&str; 5] = ["K", "k", "N", "Ts", "Ta"];

impl Reader {
    /// The walk as far as it has come. That there is none is told once.
    pub fn walk(&self, column: usize) -> Result<&Walk, Stop> {
        let message = match &self.state {
            State::Open(walk) => return Ok(walk),
            State::Start => format!("a walk begins with its realm, as in: {EXAMPLE}"),
            State::Ended(number) => {
                format!("reading has ended with refusal {number}, {}", Refusal::told(*number))
            }
            State::Raw => {
                "raw bytes stand before this: which records there are cannot be said".to_string()
            }
        };
        if self.no_walk_told.replace(true) {
            return Err(Stop::Silent);
        }
        stop(column, message)
    }

    /// Whether a name can be given.
    fn is_free(&self, name: &Token) -> Result<(), Wrong> {
        let Token { text, column } = name;
        if let Some((_, line)) = self.meanings.get(text) {
            return wrong(*column, format!("'{text}' has a meaning already, from line {line}"));
        }
        let is_word_here = TAKEN.iter().any(|word| word.eq_ignore_ascii_case(text));
        let is_taken =
            is_word_here || LETTERS.contains(&text.as_str()) || Mark::beginning(text).is_some();
        if !is_name(text) || is_taken || number(text).is_some() || atom(text, *column)?.is_some() {
            let allowed =
                "letters, digits, - and _, no word of the language, not as t20, N0, k1, p1";
            return wrong(*column, format!("'{text}' cannot be a name; allowed: {allowed}"));
        }
        Ok(())
    }

    /// The number of a message, its missing parts added: each after its parts, left
    /// before right, body before key.
    fn add(&mut self, message: &Message) -> Result<u16, Stop> {
        if let State::Open(walk) = &self.state {
            if let Some(number) = message.find(&walk.tables) {
                return Ok(number);
            }
        }
        let call = self.term_of(message)?;
        let done = self.call(call);
        match done.outcome {
            Outcome::Answered(Answer::Old(number) | Answer::New(number)) => Ok(number),
            _ => Err(Stop::Refused(done)),
        }
    }

    /// The call that adds a message, its parts being there.
    fn term_of(&mut self, message: &Message) -> Result<Call, Stop> {
        let (kind, l, r) = match message {
            Message::Pair(l, r) => (PAIR, l, r),
            Message::Encrypted(l, r) => (ENCRYPTED, l, r),
            Message::Present(number) => return Ok(self.term_again(*number)),
            atom => {
                let term = atom.atom().expect("it has no parts");
                return Ok(Call::Term { kind: term.kind, l: term.l, r: term.r });
            }
        };
        let l = self.add(l)?;
        let r = self.add(r)?;
        Ok(Call::Term { kind, l, r })
    }

    fn term_again(&self, number: u16) -> Call {
        let State::Open(walk) = &self.state else { unreachable!("a term is present in a walk") };
        let term = walk.tables.term(number).expect("the term is present");
        Call::Term { kind: term.kind, l: term.l, r: term.r }
    }
}

/// A step and its fields, the others being 0.
fn step(number: u8, run: u8, m: u16) -> Call {
    Call::Step { step: number, run, a: 0, b: 0, m, t: 0 }
}

/// Performs a sentence; names and messages that are only named have no record.
pub fn perform(reader: &mut Reader, mut cursor: Cursor) -> Result<Option<Done>, Stop> {
    let first = cursor.peek().expect("a line has a word").to_ascii_lowercase();
    if first.starts_with('"') {
        return stop(cursor.column(), "leave the quotation marks out");
    }
    if cursor.second() == Some("=") {
        return naming(reader, cursor);
    }
    if ["realm", "clock", "leak", "term", "intruder"].contains(&first.as_str()) {
        cursor.advance();
    }
    let done = match first.as_str() {
        "realm" => realm(reader, cursor),
        "clock" => clock(reader, cursor),
        "leak" => leak(reader, cursor),
        "term" => term(reader, cursor),
        "intruder" => derives(reader, cursor),
        _ => deed(reader, cursor),
    };
    done.map(Some)
}

// ---- names

/// NAME = ..
fn naming(reader: &mut Reader, mut cursor: Cursor) -> Result<Option<Done>, Stop> {
    let name = cursor.advance().expect("there is one");
    cursor.needs("=")?;
    if cursor.peek().and_then(number).is_some() && !cursor.second().is_some_and(opens_run) {
        return principals(reader, name, cursor);
    }
    reader.is_free(name)?;
    if cursor.second().is_some_and(opens_run) {
        let done = deed(reader, cursor)?;
        if let Outcome::Answered(Answer::Ok { run: Some(run), .. }) = done.outcome {
            reader.give(&name.text, Meaning::Run(run));
        } else if let Some(number) = done.outcome.refusal() {
            reader.unopened.insert(name.text.clone(), (reader.line, number));
        }
        return Ok(Some(done));
    }
    reader.walk(cursor.column())?;
    no_verb(&cursor)?;
    let message = message(reader, &mut cursor)?;
    cursor.needs_end()?;
    let number = reader.add(&message)?;
    reader.give(&name.text, Meaning::Message(number));
    Ok(None)
}

/// Two words behind a name are a sentence, and its verb is not known.
fn no_verb(cursor: &Cursor) -> Result<(), Wrong> {
    let is_word = |token: &str| token.chars().any(char::is_alphanumeric);
    match (cursor.peek(), cursor.second()) {
        (Some(first), Some(verb)) if is_word(first) && is_word(verb) && first != "term" => {
            let known = "asks, waits for and answers open a run";
            wrong(cursor.column(), format!("'{verb}' is no verb that stands here; {known}"))
        }
        _ => Ok(()),
    }
}

/// Whether a verb is of a step that opens a run.
fn opens_run(verb: &str) -> bool {
    ["asks", "waits", "answers"].contains(&verb.to_ascii_lowercase().as_str())
}

/// panel = 1, cabinet = 2
fn principals(
    reader: &mut Reader,
    first: &Token,
    mut cursor: Cursor,
) -> Result<Option<Done>, Stop> {
    let mut name = first;
    loop {
        reader.is_free(name)?;
        let number = cursor.needs_number("the principal's number", u8::MAX.into())?;
        reader.give(&name.text, Meaning::Principal(number as u8));
        if cursor.is_done() {
            break;
        }
        cursor.needs(",")?;
        name = cursor.needs_any("a name")?;
        cursor.needs("=")?;
    }
    Ok(None)
}

// ---- steps

fn clock(reader: &mut Reader, mut cursor: Cursor) -> Result<Done, Stop> {
    reader.walk(cursor.column())?;
    let t = cursor.needs_number("the clock", u32::MAX)?;
    cursor.needs_end()?;
    Ok(reader.call(Call::Step { step: TICK, run: 0, a: 0, b: 0, m: 0, t }))
}

fn leak(reader: &mut Reader, mut cursor: Cursor) -> Result<Done, Stop> {
    reader.walk(cursor.column())?;
    let run = run(reader, &mut cursor)?;
    cursor.needs_end()?;
    Ok(reader.call(step(LEAK, run, 0)))
}

/// Adds a message, and says its number also where it is there.
fn term(reader: &mut Reader, mut cursor: Cursor) -> Result<Done, Stop> {
    reader.walk(cursor.column())?;
    let message = message(reader, &mut cursor)?;
    cursor.needs_end()?;
    let call = reader.term_of(&message)?;
    Ok(reader.call(call))
}

fn derives(reader: &mut Reader, mut cursor: Cursor) -> Result<Done, Stop> {
    reader.walk(cursor.column())?;
    cursor.needs("derives")?;
    let message = message(reader, &mut cursor)?;
    cursor.needs_end()?;
    let m = reader.add(&message)?;
    Ok(reader.call(step(QUERY, 0, m)))
}

/// Who does what: P asks Q, Q waits for P, server answers, P forgets, RUN takes ..
fn deed(reader: &mut Reader, mut cursor: Cursor) -> Result<Done, Stop> {
    let start = cursor.column();
    let subject = cursor.clone();
    cursor.advance();
    if subject.peek().is_some_and(|word| word.eq_ignore_ascii_case("run")) {
        cursor.advance();
    }
    let verb = cursor.advance().map_or(String::new(), |token| token.text.to_ascii_lowercase());
    let verb = verb.as_str();
    if !["asks", "waits", "answers", "forgets", "takes"].contains(&verb) {
        let marks = Mark::all();
        let allowed = format!("a line is a record ({marks}, raw) or one of: {SENTENCES}");
        return stop(start, format!("this is no sentence; {allowed}"));
    }
    reader.walk(start)?;
    match verb {
        "asks" | "waits" => opens(reader, subject, verb, cursor),
        "answers" => answers(reader, subject, cursor),
        "forgets" => {
            let b = principal(reader, &mut subject.clone())?;
            cursor.needs_end()?;
            Ok(reader.call(Call::Step { step: PURGE, run: 0, a: 0, b, m: 0, t: 0 }))
        }
        _ => takes(reader, subject, cursor),
    }
}

fn opens(
    reader: &mut Reader,
    mut subject: Cursor,
    verb: &str,
    mut cursor: Cursor,
) -> Result<Done, Stop> {
    let who = principal(reader, &mut subject)?;
    cursor.takes("for");
    let whom = principal(reader, &mut cursor)?;
    cursor.needs_end()?;
    let (number, a, b) = if verb == "asks" { (INITIATE, who, whom) } else { (RESPOND, whom, who) };
    Ok(reader.call(Call::Step { step: number, run: 0, a, b, m: 0, t: 0 }))
}

/// The server answers a run's request, or any message.
fn answers(reader: &mut Reader, subject: Cursor, mut cursor: Cursor) -> Result<Done, Stop> {
    if !subject.peek().is_some_and(|word| word.eq_ignore_ascii_case("server")) {
        return stop(subject.column(), "the server answers, nobody else");
    }
    let named = cursor.peek().and_then(|name| reader.meanings.get(name));
    let message = match named {
        Some((Meaning::Run(run), _)) => {
            let run = *run;
            let column = cursor.column();
            cursor.advance();
            request(reader.walk(column)?, run).map_or_else(
                || wrong(column, "this run has sent no request: only an initiator's has"),
                |term| Ok(Message::Present(term)),
            )?
        }
        _ => {
            is_named(reader, &cursor)?;
            message(reader, &mut cursor)?
        }
    };
    cursor.needs_end()?;
    let m = reader.add(&message)?;
    Ok(reader.call(step(ISSUE, 0, m)))
}

/// Whether a word has the form of a name.
fn is_name(word: &str) -> bool {
    word.chars().all(|c| c.is_alphanumeric() || c == '_' || c == '-')
}

/// A word by itself has to be the name of a run or a message.
fn is_named(reader: &Reader, cursor: &Cursor) -> Result<(), Stop> {
    let Some(name) = cursor.peek().filter(|_| cursor.second().is_none()) else { return Ok(()) };
    if is_name(name) && name != "now" && atom(name, cursor.column())?.is_none() {
        meaning(reader, name, cursor.column(), "a run or a message")?;
    }
    Ok(())
}

fn request(walk: &Walk, run: u8) -> Option<u16> {
    let mut sent = walk.taken.iter().flat_map(|taken| &taken.sent);
    sent.find(|sent| sent.run == run && sent.name == "request").map(|sent| sent.term)
}

/// RUN takes [the] [reply | delivery | confirmation] MESSAGE. Where the message is
/// not named, the run's role and stage say which step it is.
fn takes(reader: &mut Reader, mut subject: Cursor, mut cursor: Cursor) -> Result<Done, Stop> {
    let run = run(reader, &mut subject)?;
    cursor.takes("the");
    let named = cursor.peek().filter(|_| cursor.second().is_some()).and_then(Step::taking);
    if named.is_some() {
        cursor.advance();
    }
    let row = reader.walk(cursor.column())?.tables.run(run).expect("the run is there");
    let number = named.map(|step| step.number).unwrap_or(match (row.role, row.stage) {
        (Role::Responder, _) => ACCEPT,
        (Role::Initiator, Stage::Opened) => AUTHENTICATE,
        (Role::Initiator, _) => FINISH,
        (Role::Server, _) => {
            return stop(subject.column(), "a server run takes nothing: it is done");
        }
    });
    let message = message(reader, &mut cursor)?;
    cursor.needs_end()?;
    let m = reader.add(&message)?;
    Ok(reader.call(step(number, run, m)))
}
