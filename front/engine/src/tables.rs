//! A realm with its tables, call by call.

use crate::foreign::{pogandir_call, pogandir_known, pogandir_open};
use crate::foreign::{Entry, Header, Realm, Record, Reply};
use crate::{is_marked, Set};

pub const TERM_PLACES: usize = 512;
pub const MAX_RUNS: usize = 64;
pub const ROW_WORDS: usize = 7;
pub const RUN_WORDS: usize = MAX_RUNS * ROW_WORDS;
pub const WIRE_WORDS: usize = 8;
pub const CACHE_PLACES: usize = 16;

/// What is asked of the engine: a term to add, or a step to take.
#[derive(Clone, Copy, Debug, PartialEq, Eq)]
pub enum Call {
    Term { kind: u8, l: u16, r: u16 },
    Step { step: u8, run: u8, a: u8, b: u8, m: u16, t: u32 },
}

#[derive(Clone, Copy, Debug, PartialEq, Eq)]
pub enum Answer {
    /// The number of a term that was present.
    Old(u16),
    /// The number of a term that was added.
    New(u16),
    /// A step: the run that it names, if any, and how many terms it added.
    Ok {
        run: Option<u8>,
        added: u16,
    },
    Refused(u8),
}

impl Answer {
    /// How many terms the call added.
    pub fn added(self) -> u16 {
        match self {
            Answer::New(_) => 1,
            Answer::Ok { added, .. } => added,
            Answer::Old(_) | Answer::Refused(_) => 0,
        }
    }
}

/// A term of the table: its kind, and its operands.
#[derive(Clone, Copy, Debug, PartialEq, Eq)]
pub struct Term {
    pub kind: u8,
    pub l: u16,
    pub r: u16,
}

#[derive(Clone, Copy, Debug, PartialEq, Eq)]
pub enum Role {
    Initiator,
    Responder,
    Server,
}

#[derive(Clone, Copy, Debug, PartialEq, Eq)]
pub enum Stage {
    Opened,
    Authenticated,
    Done,
}

/// A row of the table of runs. `k`, `ts` and `ta` are 0 until they are taken.
#[derive(Clone, Copy, Debug, PartialEq, Eq)]
pub struct Run {
    pub role: Role,
    pub stage: Stage,
    pub a: u8,
    pub b: u8,
    pub k: u8,
    pub ts: u32,
    pub ta: u32,
}

/// A realm and its tables. They may be of any length: each call looks at that.
#[derive(Clone, Debug, PartialEq, Eq)]
pub struct Tables {
    pub realm: Realm,
    pub terms: Vec<u64>,
    pub runs: Vec<u32>,
    pub wire: Vec<u64>,
    pub cache: Vec<Entry>,
}

impl Tables {
    /// Tables of their full number of places around a realm.
    pub fn of(realm: Realm) -> Tables {
        Tables {
            realm,
            terms: vec![0; TERM_PLACES],
            runs: vec![0; RUN_WORDS],
            wire: vec![0; WIRE_WORDS],
            cache: vec![Entry::default(); CACHE_PLACES],
        }
    }

    /// A new realm, or the number of the refusal.
    pub fn open(header: Header) -> Result<Tables, u8> {
        // SAFETY: structs by value; the contract has no requires.
        let opened = unsafe { pogandir_open(header) };
        match opened.refusal {
            0 => Ok(Tables::of(opened.realm)),
            refusal => Err(refusal),
        }
    }

    pub fn call(&mut self, call: Call) -> Answer {
        // SAFETY: each pointer and length is of one vector, borrowed for the
        // call alone and no other's; the contract has no requires.
        let reply = unsafe {
            pogandir_call(
                self.realm,
                self.terms.as_mut_ptr(),
                self.terms.len(),
                self.runs.as_mut_ptr(),
                self.runs.len(),
                self.wire.as_mut_ptr(),
                self.wire.len(),
                self.cache.as_mut_ptr(),
                self.cache.len(),
                record(call),
            )
        };
        self.realm = reply.realm;
        answered(&reply)
    }

    /// The terms that the intruder can derive; 10 for tables that do not hold
    /// together.
    pub fn known(&self) -> Result<Set, u8> {
        let mut known = [0; WIRE_WORDS];
        // SAFETY: each pointer and length is of one vector or array, borrowed
        // for the call; the contract has no requires.
        let refusal = unsafe {
            pogandir_known(
                self.realm,
                self.terms.as_ptr(),
                self.terms.len(),
                self.wire.as_ptr(),
                self.wire.len(),
                known.as_mut_ptr(),
                known.len(),
            )
        };
        match refusal {
            0 => Ok(known),
            refusal => Err(refusal),
        }
    }

    /// How many terms are on the wire.
    pub fn marks(&self) -> u32 {
        self.wire.iter().map(|word| word.count_ones()).sum()
    }

    pub fn is_on_wire(&self, term: u16) -> bool {
        is_marked(&self.wire, term)
    }

    /// A term that is present.
    pub fn term(&self, number: u16) -> Option<Term> {
        let word = *self.terms.get(..self.realm.terms)?.get(usize::from(number))?;
        Some(Term { kind: (word >> 32) as u8, l: (word >> 16) as u16, r: word as u16 })
    }

    /// The number of a term, if it is present.
    pub fn find(&self, term: Term) -> Option<u16> {
        let word = u64::from(term.kind) << 32 | u64::from(term.l) << 16 | u64::from(term.r);
        let present = self.terms.get(..self.realm.terms)?;
        present.iter().position(|&other| other == word).map(|place| place as u16)
    }

    /// A run that is present.
    pub fn run(&self, number: u8) -> Option<Run> {
        let number = usize::from(number);
        if number >= self.realm.runs {
            return None;
        }
        let row = self.runs.get(number * ROW_WORDS..(number + 1) * ROW_WORDS)?;
        let role = match row[0] {
            1 => Role::Initiator,
            2 => Role::Responder,
            3 => Role::Server,
            _ => return None,
        };
        let stage = match row[1] {
            1 => Stage::Opened,
            2 => Stage::Authenticated,
            3 => Stage::Done,
            _ => return None,
        };
        let (a, b, k) = (row[2] as u8, row[3] as u8, row[4] as u8);
        Some(Run { role, stage, a, b, k, ts: row[5], ta: row[6] })
    }

    /// The entries of the replay cache; none where there are fewer places.
    pub fn entries(&self) -> &[Entry] {
        self.cache.get(..self.realm.entries).unwrap_or_default()
    }
}

fn answered(reply: &Reply) -> Answer {
    let Reply { kind, number, added, .. } = *reply;
    match (kind, added) {
        (0, 0) => Answer::Old(number),
        (0, 1) => Answer::New(number),
        (1, _) => Answer::Ok { run: Some(number as u8), added },
        (2, _) => Answer::Ok { run: None, added },
        (3, 0) => Answer::Refused(number as u8),
        _ => panic!("no reply has kind {kind} with {added} terms added"),
    }
}

fn record(call: Call) -> Record {
    match call {
        Call::Term { kind, l, r } => Record { adds: true, kind, l, r, ..Record::default() },
        Call::Step { step, run, a, b, m, t } => {
            Record { step, run, a, b, m, t, ..Record::default() }
        }
    }
}
