//! A walk, record by record: what was asked, what the engine answered, and what
//! its tables were afterwards. Every number in it is the engine's.

use std::collections::BTreeMap;

use engine::{Answer, Call, Entry, Header, Role, Run, Set, Stage, Tables, WIRE_WORDS};

use crate::answers;
use crate::forms::{self, Form};
use crate::notation::Names;
use crate::reason;
use crate::vocabulary::{ACCEPT, LEAK};

/// A message that a step sent: its name in the table of messages, the run, and the
/// parts of the message that have names.
#[derive(Clone, Debug, PartialEq, Eq)]
pub struct Sent {
    pub name: &'static str,
    pub term: u16,
    pub run: u8,
    pub parts: Vec<(&'static str, u16)>,
}

impl Sent {
    /// The message with its name, then its parts.
    pub fn named(&self) -> impl Iterator<Item = (&'static str, u16)> + '_ {
        [(self.name, self.term)].into_iter().chain(self.parts.iter().copied())
    }
}

/// What stands behind an acceptance: its one initiator run, or why nothing is
/// promised.
#[derive(Clone, Debug, PartialEq, Eq)]
pub enum Acceptance {
    Matched(u8),
    NotCovered(String),
}

/// A record that was taken to the engine, and the tables after it.
#[derive(Clone, Debug)]
pub struct Taken {
    pub call: Call,
    pub answer: Answer,
    /// Why it was refused, or what an accepted call did.
    pub reason: String,
    pub sent: Vec<Sent>,
    pub acceptance: Option<Acceptance>,
    pub clock: u32,
    pub terms: usize,
    pub wire: Set,
    /// The terms that the intruder can derive.
    pub known: Set,
    pub runs: Vec<Run>,
    pub entries: Vec<Entry>,
}

#[derive(Clone, Debug)]
pub struct Walk {
    pub header: Header,
    pub tables: Tables,
    pub names: Names,
    /// Record k of the file is at k - 1: the header is record 0.
    pub taken: Vec<Taken>,
    /// The record at which a session key leaked first.
    leaks: BTreeMap<u8, usize>,
}

impl Walk {
    /// A new realm, or the number of the refusal.
    pub fn open(header: Header, names: Names) -> Result<Walk, u8> {
        let tables = Tables::open(header)?;
        Ok(Walk { header, tables, names, taken: Vec::new(), leaks: BTreeMap::new() })
    }

    pub fn is_bad(&self, principal: u8) -> bool {
        self.header.flags >> principal & 1 == 1
    }

    /// The number that the next record has in the file.
    pub fn next_record(&self) -> usize {
        self.taken.len() + 1
    }

    pub fn runs(&self) -> Vec<Run> {
        (0..self.tables.realm.runs as u8).filter_map(|run| self.tables.run(run)).collect()
    }

    /// The record at which a session key leaked first, if it did.
    pub fn leaked(&self, key: u8) -> Option<usize> {
        self.leaks.get(&key).copied()
    }

    /// The record at which a run took its delivery and so left this entry.
    pub fn remembered(&self, entry: Entry) -> Option<usize> {
        let is_it = |taken: &Taken| match (taken.call, taken.answer) {
            (Call::Step { step: ACCEPT, run, .. }, Answer::Ok { .. }) => {
                let run = taken.runs[usize::from(run)];
                entry == Entry { b: run.b.into(), k: run.k.into(), ta: run.ta }
            }
            _ => false,
        };
        self.taken.iter().rposition(is_it).map(|place| place + 1)
    }

    /// Gives a call to the engine and keeps what came of it.
    pub fn take(&mut self, call: Call) -> Answer {
        let before = self.tables.clone();
        let answer = self.tables.call(call);
        let mut reason = match answer {
            Answer::Refused(number) => reason::refused(self, &before, call, number),
            _ => answers::accepted(self, &before, call),
        };
        let sent = self.sent(&before, call, answer);
        self.note_leak(call, answer);
        let acceptance = self.acceptance(call, answer);
        if let Some(acceptance) = &acceptance {
            reason = answers::acceptance(self, acceptance);
        }
        let taken = Taken {
            call,
            answer,
            reason,
            sent,
            acceptance,
            clock: self.tables.realm.clock,
            terms: self.tables.realm.terms,
            wire: self.wire(),
            known: self.known(&before),
            runs: self.runs(),
            entries: self.tables.entries().to_vec(),
        };
        self.taken.push(taken);
        answer
    }

    fn wire(&self) -> Set {
        let mut wire = [0; WIRE_WORDS];
        wire.copy_from_slice(&self.tables.wire);
        wire
    }

    /// What the intruder can derive; it is asked again where a table has changed.
    fn known(&self, before: &Tables) -> Set {
        match self.taken.last() {
            Some(last)
                if before.wire == self.tables.wire
                    && before.realm.terms == self.tables.realm.terms =>
            {
                last.known
            }
            _ => self.tables.known().expect("the engine's own tables hold together"),
        }
    }

    fn sent(&self, before: &Tables, call: Call, answer: Answer) -> Vec<Sent> {
        let (Call::Step { step, .. }, Answer::Ok { run: Some(run), .. }) = (call, answer) else {
            return Vec::new();
        };
        let values = forms::values(before, call).expect("an accepted step has its values");
        let term = |form: &Form| {
            let message = form.message(&values).expect("what was sent has its values");
            message.find(&self.tables).expect("what was sent is a term")
        };
        let sent = |sent: forms::Named| {
            let (name, whole) = (sent.name, term(&sent.form));
            assert!(self.tables.is_on_wire(whole), "what was sent is on the wire");
            let parts = sent.parts.iter().map(|(name, form)| (*name, term(form)));
            Sent { name, term: whole, run, parts: parts.collect() }
        };
        forms::sends(before.realm.rules, step).into_iter().map(sent).collect()
    }

    fn note_leak(&mut self, call: Call, answer: Answer) {
        if let (Call::Step { step: LEAK, run, .. }, Answer::Ok { .. }) = (call, answer) {
            let record = self.next_record();
            let key = self.tables.run(run).expect("the run is there").k;
            self.leaks.entry(key).or_insert(record);
        }
    }

    fn acceptance(&self, call: Call, answer: Answer) -> Option<Acceptance> {
        let Call::Step { step: ACCEPT, .. } = call else { return None };
        let Answer::Ok { run: Some(number), .. } = answer else { return None };
        let run = self.tables.run(number)?;
        let bad = [run.a, run.b].into_iter().find(|&principal| self.is_bad(principal));
        if let Some(bad) = bad {
            let bad = self.names.principal(bad);
            return Some(Acceptance::NotCovered(format!("{bad} is bad")));
        }
        if let Some(record) = self.leaked(run.k) {
            let leak = format!("k{} leaked at record {record}", run.k);
            return Some(Acceptance::NotCovered(leak));
        }
        Some(matched(&self.runs(), &run))
    }
}

/// The initiator run of a for b that has an accepting run's key and times, if it is one.
/// The rules of Kerberos promise one; another rule set need not.
pub fn matched(runs: &[Run], run: &Run) -> Acceptance {
    let is_match = |other: &Run| {
        let values = |run: &Run| (run.a, run.b, run.k, run.ts, run.ta);
        other.role == Role::Initiator
            && other.stage != Stage::Opened
            && values(other) == values(run)
    };
    let matches: Vec<u8> = (0..).zip(runs).filter(|(_, r)| is_match(r)).map(|(n, _)| n).collect();
    match matches[..] {
        [one] => Acceptance::Matched(one),
        [] => Acceptance::NotCovered("none has its key and times".to_string()),
        _ => Acceptance::NotCovered(format!("{} have its key and times", matches.len())),
    }
}
