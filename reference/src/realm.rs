//! The realm (the paper's hall): its tables, its clock, and the records that
//! come to it. Refusals 4, 5 and 6 are settled before the steps do the rest.

use std::collections::HashSet;

use crate::fields::{below, nonce_or_key, StepFields, TermFields};
use crate::file::{Record, Settings, StepRecord, TermRecord};
use crate::intruder;
use crate::refusal::Refusal;
use crate::terms::{Message, Shape, Terms};

pub const MAX_RUNS: usize = 64;
pub const MAX_ENTRIES: usize = 16;

#[derive(Clone, Copy, Debug, PartialEq, Eq)]
pub enum Role {
    Initiator,
    Responder,
    Server,
}

#[derive(Clone, Copy, Debug, PartialEq, Eq)]
pub enum Stage {
    Opened,
    AfterStep4,
    Done,
}

/// What a run holds once taken: the session key, its time and, in all but
/// server runs, the authenticator's time.
#[derive(Clone, Copy, Debug, PartialEq, Eq)]
pub struct Held {
    pub session_key: u8,
    pub ticket_time: u32,
    pub authenticator_time: Option<u32>,
}

#[derive(Clone, Copy, Debug, PartialEq, Eq)]
pub struct Run {
    pub role: Role,
    pub a: u8,
    pub b: u8,
    pub stage: Stage,
    pub held: Option<Held>,
}

/// An entry of the replay cache: b, K and Ta.
#[derive(Clone, Copy, Debug, PartialEq, Eq)]
pub struct Entry {
    pub responder: u8,
    pub session_key: u8,
    pub authenticator_time: u32,
}

pub struct Realm {
    pub settings: Settings,
    pub clock: u32,
    pub terms: Terms,
    pub wire: HashSet<Message>,
    pub runs: Vec<Run>,
    pub cache: Vec<Entry>,
}

/// What an accepted record prints.
#[derive(Clone, Copy, Debug, PartialEq, Eq)]
pub enum Answer {
    /// The number of a term that was present.
    Old(u16),
    /// The number of a term that was added.
    New(u16),
    /// A step: the run that it names, if any, and how many terms it added.
    Step { run: Option<usize>, added: usize },
}

impl Realm {
    /// "A new hall has clock 0 and empty tables."
    pub fn new(settings: Settings) -> Realm {
        Realm {
            settings,
            clock: 0,
            terms: Terms::default(),
            wire: HashSet::new(),
            runs: Vec::new(),
            cache: Vec::new(),
        }
    }

    /// Takes one record. A refused one leaves everything as it was.
    pub fn apply(&mut self, record: &Record) -> Result<Answer, Refusal> {
        match record {
            Record::Term(record) => self.add_term(record),
            Record::Step(record) => {
                self.check_step(record)?;
                let before = self.terms.count();
                let run = self.take_step(record)?;
                Ok(Answer::Step { run, added: self.terms.count() - before })
            }
        }
    }

    /// What the intruder can derive among the terms present.
    pub fn derivable(&self) -> HashSet<Message> {
        intruder::derivable(&self.settings, &self.terms, &self.wire)
    }

    fn add_term(&mut self, record: &TermRecord) -> Result<Answer, Refusal> {
        let message = self.term_of(record)?;
        if let Some(number) = self.terms.number(&message) {
            return Ok(Answer::Old(number));
        }
        let missing = self.terms.missing(&[message]);
        if !self.terms.has_room_for(missing.len()) {
            return Err(Refusal::TermsFull);
        }
        self.terms.add(missing);
        Ok(Answer::New(self.terms.count() as u16 - 1))
    }

    /// The message that a TM record names; refusals 4, 5 and 6.
    fn term_of(&mut self, record: &TermRecord) -> Result<Message, Refusal> {
        TermFields::from(record).check(self.settings.principals)?;
        let TermRecord { kind, left, right } = *record;
        let shape = match kind {
            0 => Shape::Principal(self.principal(left)?),
            1 => Shape::Time(u32::from(left) * 65_536 + u32::from(right)),
            2 => Shape::Nonce(nonce_or_key(left.into())?),
            3 => Shape::LongTermKey(self.principal(left)?),
            4 => Shape::SessionKey(nonce_or_key(left.into())?),
            5 => Shape::Pair(self.term(left)?, self.term(right)?),
            _ => Shape::Encrypted(self.term(left)?, self.key(right)?),
        };
        Ok(self.terms.make(shape))
    }

    pub fn principal(&self, number: u16) -> Result<u8, Refusal> {
        below(self.settings.principals, number.into())
    }

    pub fn term(&self, number: u16) -> Result<Message, Refusal> {
        self.terms.at(number).cloned().ok_or(Refusal::BadReference)
    }

    fn key(&self, number: u16) -> Result<Message, Refusal> {
        let key = self.term(number)?;
        match key.shape() {
            Shape::LongTermKey(_) | Shape::SessionKey(_) => Ok(key),
            _ => Err(Refusal::BadReference),
        }
    }

    /// Refusals 4, 5 and 6 of an ST record.
    fn check_step(&self, record: &StepRecord) -> Result<(), Refusal> {
        let uses = StepFields::from(record).check(self.settings.principals)?;
        let not_present = uses.run && usize::from(record.run) >= self.runs.len()
            || uses.message && usize::from(record.message) >= self.terms.count();
        if not_present {
            return Err(Refusal::BadReference);
        }
        Ok(())
    }
}
