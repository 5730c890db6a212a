//! The program `call_cases`: calls on lent tables. Its lines, by their letters:
//!
//! - N: everything as it was at first
//! - H: n, flags, Ls, La and the clock of the realm; how many places of the cache
//!   are lent
//! - G: the number of the realm's rule set
//! - C: how many terms, runs and entries there are; how many places of the term
//!   table, words of the table of runs and words of the wire are lent
//! - T: a place of the term table; kind, L and R
//! - R: a run, one of its seven words, and its value
//! - W: a word of the wire, and its halves
//! - E: a place of the cache; b, K and Ta
//! - O: mark, n, flags, Ls, La; opens a realm, which the calls then have
//! - A: kind, L, R; adds a term
//! - S: step, run, a, b, m, t; takes a step
//! - M: b, K, Ta; remembers an entry, by the call of that name alone
//! - F: b, clock, La; forgets b's entries, likewise
//!
//! The last five write the answer, and whatever has changed. That of A says whether
//! the term is new or old, that of S how many terms the step added.

use std::fmt::Write;

use reference::file::{Header, Record, Settings, StepRecord, TermRecord};
use reference::realm::{Answer, MAX_ENTRIES};
use reference::refusal::Refusal;
use reference::tables::{
    forget, remember, Counts, Place, Tables, ROW, RUN_WORDS, TERM_PLACES, WIRE_WORDS,
};

use crate::line::Line;
use crate::Program;

/// What is no term, no run and no entry.
pub const NO_TERM: u64 = 77_777_777_777_777;
pub const NO_RUN: u32 = 77;
pub const NO_ENTRY: Place = Place { b: 77, k: 777, ta: 7 };

/// How many places of each table a call is lent.
#[derive(Clone, Copy, Debug, PartialEq, Eq)]
pub struct Lent {
    pub terms: usize,
    pub runs: usize,
    pub wire: usize,
    pub cache: usize,
}

pub const FULL: Lent =
    Lent { terms: TERM_PLACES, runs: RUN_WORDS, wire: WIRE_WORDS, cache: MAX_ENTRIES };

/// The tables of the program, each with a place more than it should have.
#[derive(Clone, Debug, PartialEq, Eq)]
pub struct World {
    pub tables: Tables,
    pub lent: Lent,
}

impl Default for World {
    fn default() -> World {
        World {
            tables: Tables {
                settings: settings(0, [0; 4]),
                clock: 0,
                counts: Counts::default(),
                terms: vec![NO_TERM; TERM_PLACES + 1],
                runs: vec![NO_RUN; RUN_WORDS + 1],
                wire: vec![0; WIRE_WORDS + 1],
                cache: vec![NO_ENTRY; MAX_ENTRIES + 1],
            },
            lent: FULL,
        }
    }
}

impl World {
    /// A call on the places that are lent.
    pub fn call(&mut self, record: &Record) -> Result<Answer, Refusal> {
        let mut lent = self.tables.clone();
        lent.terms.truncate(self.lent.terms);
        lent.runs.truncate(self.lent.runs);
        lent.wire.truncate(self.lent.wire);
        lent.cache.truncate(self.lent.cache);
        let answer = lent.call(record);
        lent.terms.extend(&self.tables.terms[self.lent.terms..]);
        lent.runs.extend(&self.tables.runs[self.lent.runs..]);
        lent.wire.extend(&self.tables.wire[self.lent.wire..]);
        lent.cache.extend(&self.tables.cache[self.lent.cache..]);
        self.tables = lent;
        answer
    }

    /// `remember` or `forget` on the places that are lent.
    fn thin_call(&mut self, letter: char, numbers: [u32; 6]) -> Result<(), Refusal> {
        let [b, x, y, ..] = numbers;
        let list = &mut self.tables.cache[..self.lent.cache];
        let entries = &mut self.tables.counts.entries;
        *entries = if letter == 'M' {
            remember(list, *entries, Place { b: b as u16, k: x as u16, ta: y })?
        } else {
            forget(list, *entries, b as u16, x, y)?
        };
        Ok(())
    }

    /// "A new hall has clock 0 and empty tables."
    pub fn open(&mut self, header: Header) -> Result<(), Refusal> {
        self.tables.settings = header.check()?.settings();
        self.tables.clock = 0;
        self.tables.counts = Counts::default();
        Ok(())
    }

    fn set(&mut self, letter: char, numbers: [u32; 6]) {
        let [a, b, c, d, e, f] = numbers;
        let [x, y, z, ..] = numbers.map(|number| number as usize);
        let tables = &mut self.tables;
        match letter {
            'N' => *self = World::default(),
            'H' => {
                tables.settings = settings(tables.settings.rules, [a, b, c, d]);
                tables.clock = e;
                self.lent.cache = f as usize;
            }
            'G' => tables.settings.rules = a as u8,
            'C' => {
                tables.counts = Counts { terms: x, runs: y, entries: z };
                let (terms, runs, wire) = (d as usize, e as usize, f as usize);
                self.lent = Lent { terms, runs, wire, ..self.lent };
            }
            'T' => tables.terms[x] = word(b, c, d),
            'R' => tables.runs[x * ROW + y] = c,
            'W' => tables.wire[x] = u64::from(b) << 32 | u64::from(c),
            'E' => tables.cache[x] = Place { b: b as u16, k: c as u16, ta: d },
            _ => panic!("no line begins with {letter}"),
        }
    }
}

fn settings(rules: u8, [n, flags, ticket_life, authenticator_life]: [u32; 4]) -> Settings {
    Settings { principals: n as u8, rules, flags, ticket_life, authenticator_life }
}

fn header([mark, n, flags, ticket_life, authenticator_life, _]: [u32; 6]) -> Header {
    let (mark, principals) = (mark as u16, n as u8);
    Header { mark, principals, flags, ticket_life, authenticator_life }
}

pub fn word(kind: u32, left: u32, right: u32) -> u64 {
    u64::from(kind) << 32 | u64::from(left) << 16 | u64::from(right)
}

pub fn record(letter: char, numbers: [u32; 6]) -> Record {
    let [a, b, c, d, e, f] = numbers;
    if letter == 'A' {
        return Record::Term(TermRecord { kind: a as u8, left: b as u16, right: c as u16 });
    }
    Record::Step(StepRecord {
        step: a as u8,
        run: b as u8,
        a: c as u8,
        b: d as u8,
        message: e as u16,
        time: f,
    })
}

impl Program for World {
    fn obey(&mut self, line: &Line, output: &mut String) {
        let (letter, numbers) = match line {
            Line::Text(text) => return output.push_str(text),
            Line::Numbers(letter, numbers) => (*letter, *numbers),
        };
        let before = self.clone();
        let answer = match letter {
            'O' => self.open(header(numbers)).map(|()| "ok".to_string()),
            'A' | 'S' => self.call(&record(letter, numbers)).map(told),
            'M' | 'F' => self.thin_call(letter, numbers).map(|()| "ok".to_string()),
            _ => return self.set(letter, numbers),
        };
        let _ = match answer {
            Ok(answer) => write!(output, ": {answer}"),
            Err(refusal) => write!(output, ": refused {}", refusal.number()),
        };
        changes(&before.tables, &self.tables, output);
        output.push('\n');
    }
}

/// An answer in words.
fn told(answer: Answer) -> String {
    match answer {
        Answer::Old(number) => format!("term {number} old"),
        Answer::New(number) => format!("term {number} new"),
        Answer::Step { run: Some(run), added } => format!("ok {run} +{added}"),
        Answer::Step { run: None, added } => format!("ok - +{added}"),
    }
}

/// Every field and every place that has changed, with its value.
fn changes(before: &Tables, after: &Tables, output: &mut String) {
    word_changes("field", &fields(before), &fields(after), output);
    word_changes("term", &before.terms, &after.terms, output);
    word_changes("wire", &before.wire, &after.wire, output);
    for (place, new) in after.runs.iter().enumerate() {
        if before.runs[place] != *new {
            let _ = write!(output, ", run {}.{} = {new}", place / ROW, place % ROW);
        }
    }
    for (place, new) in after.cache.iter().enumerate() {
        if before.cache[place] != *new {
            let _ = write!(output, ", entry {place} = {} {} {}", new.b, new.k, new.ta);
        }
    }
}

/// The words are written in base 16: a term's are its kind and four digits each
/// for L and R.
pub fn word_changes(name: &str, before: &[u64], after: &[u64], output: &mut String) {
    for (place, (old, new)) in before.iter().zip(after).enumerate() {
        if old != new {
            let _ = write!(output, ", {name} {place} = {new:x}");
        }
    }
}

/// n, the rule set, flags, Ls, La, the clock and the three counts.
fn fields(tables: &Tables) -> [u64; 9] {
    let Tables { settings, clock, counts, .. } = tables;
    [
        settings.principals.into(),
        settings.rules.into(),
        settings.flags.into(),
        settings.ticket_life.into(),
        settings.authenticator_life.into(),
        (*clock).into(),
        counts.terms as u64,
        counts.runs as u64,
        counts.entries as u64,
    ]
}
