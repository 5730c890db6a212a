//! What the chart shows of each row: who took what from whom.

use std::collections::BTreeMap;

use engine::{Call, Term};

use super::rows::{Kind, Row};
use crate::forms;
use crate::vocabulary::{Step, INITIATE, ISSUE, LEAK, PAIR, PURGE, QUERY, TICK};
use crate::vocabulary::{REFUSED_FORM, RESPOND};
use crate::walk::{Acceptance, Sent, Walk};

/// A lifeline: a run's, the server's where it refused and opened none, or the
/// intruder's.
#[derive(Clone, Copy, Debug, PartialEq, Eq, PartialOrd, Ord)]
pub enum Lane {
    Run(u8),
    NoRun,
    Intruder,
}

/// A message, or a half of one, with the lifeline that it comes from.
#[derive(Clone, Debug, PartialEq, Eq)]
pub struct Part {
    pub from: Lane,
    pub name: String,
}

#[derive(Clone, Copy, Debug, PartialEq, Eq)]
pub enum Note {
    Taken,
    NotCovered,
    Refused(u8),
}

#[derive(Clone, Debug, PartialEq, Eq)]
pub enum Act {
    Opens { run: u8, name: &'static str },
    Takes { to: Lane, parts: Vec<Part>, note: Note },
    Clock(u32),
    Forgets { principal: u8, count: usize },
    Leaks { run: u8, name: &'static str },
    Derives { refused: Option<u8> },
    Refused(u8),
}

#[derive(Clone, Debug)]
pub struct Event {
    pub record: usize,
    /// The row in words.
    pub told: String,
    pub act: Act,
}

const TICKET: &str = "ticket";

/// The run that sent a term last, and the message's name.
type Senders = BTreeMap<u16, (u8, &'static str)>;

/// An event for each step of the walk.
pub fn events(walk: &Walk, rows: &[Row]) -> Vec<Event> {
    let mut senders = Senders::new();
    let mut events = Vec::new();
    for (row, taken) in rows.iter().skip(1).zip(&walk.taken) {
        if let Call::Step { .. } = taken.call {
            let act = act(walk, &senders, row, taken.call);
            let told = format!("record {}: {}: {}", row.record, row.call, row.answer);
            events.push(Event { record: row.record, told, act });
        }
        taken.sent.iter().for_each(|sent| note(&mut senders, sent));
    }
    events
}

/// What an initiator passes on as the ticket can be any message. One that was sent as
/// something else stays that.
fn note(senders: &mut Senders, sent: &Sent) {
    for (name, term) in sent.named() {
        let is_other = |(_, before): &(u8, &str)| name == TICKET && *before != TICKET;
        if !senders.get(&term).is_some_and(is_other) {
            senders.insert(term, (sent.run, name));
        }
    }
}

fn act(walk: &Walk, senders: &Senders, row: &Row, call: Call) -> Act {
    let Call::Step { step, run, b, t, .. } = call else { unreachable!("terms are no events") };
    // The run that an accepted step opened is the one that changed.
    let opened = row.runs.first().map(|run| run.run);
    match (step, row.refused) {
        (QUERY, refused) => Act::Derives { refused },
        (INITIATE, None) => Act::Opens { run: opened.unwrap_or(run), name: "asks" },
        (RESPOND, None) => Act::Opens { run: opened.unwrap_or(run), name: "waits" },
        (TICK, None) => Act::Clock(t),
        (PURGE, None) => Act::Forgets { principal: b, count: row.forgotten() },
        (LEAK, None) => Act::Leaks { run, name: "key" },
        (ISSUE, None) => takes(walk, senders, row, Lane::Run(opened.unwrap_or(run))),
        (ISSUE, Some(_)) => takes(walk, senders, row, Lane::NoRun),
        (_, None) => takes(walk, senders, row, Lane::Run(run)),
        (_, Some(refusal)) => {
            let takes_one = Step::of(step.into()).is_some_and(|step| step.takes.is_some());
            let is_there = row.unchanged_runs > usize::from(run);
            match takes_one && is_there {
                true => takes(walk, senders, row, Lane::Run(run)),
                false => Act::Refused(refusal),
            }
        }
    }
}

fn takes(walk: &Walk, senders: &Senders, row: &Row, to: Lane) -> Act {
    let term = row.message.as_ref().and_then(|noted| noted.term);
    let note = match (row.refused, &row.acceptance) {
        (Some(refusal), _) => Note::Refused(refusal),
        (None, Some(Acceptance::NotCovered(_))) => Note::NotCovered,
        _ => Note::Taken,
    };
    match (term, note) {
        (Some(term), _) => Act::Takes { to, parts: parts(walk, senders, row, term), note },
        // A term that is not there was delivered by nobody.
        (None, Note::Refused(refusal)) => Act::Refused(refusal),
        (None, _) => Act::Takes { to, parts: Vec::new(), note },
    }
}

/// Where a message comes from: from the run that sent it, or each half by itself where
/// the step takes a pair, or from the intruder. Halves have their names if the message
/// has the step's form.
fn parts(walk: &Walk, senders: &Senders, row: &Row, term: u16) -> Vec<Part> {
    let Kind::Step(step) = row.kind else { return Vec::new() };
    let name = Step::of(step.into()).and_then(|step| step.takes).unwrap_or("message");
    let sent = |term: u16| {
        let (run, name) = senders.get(&term)?;
        Some(Part { from: Lane::Run(*run), name: name.to_string() })
    };
    let made = |name: &str| Part { from: Lane::Intruder, name: name.to_string() };
    let halves = forms::halves(walk.tables.realm.rules, step);
    match (sent(term), walk.tables.term(term), halves) {
        (Some(part), ..) => vec![part],
        (None, Some(Term { kind: PAIR, l, r }), Some(halves)) => {
            let fits = row.refused.is_none_or(|refusal| refusal > REFUSED_FORM);
            let halves = if fits { halves } else { ["part", "part"] };
            let half = |(term, name)| sent(term).unwrap_or_else(|| made(name));
            let halves: Vec<Part> = [l, r].into_iter().zip(halves).map(half).collect();
            match halves.iter().all(|half| half.from == Lane::Intruder) {
                true => vec![made(name)],
                false => merged(halves),
            }
        }
        _ => vec![made(name)],
    }
}

/// Halves that come from one lifeline are one arrow.
fn merged(halves: Vec<Part>) -> Vec<Part> {
    match &halves[..] {
        [one, two] if one.from == two.from => {
            vec![Part { from: one.from, name: format!("{}, {}", one.name, two.name) }]
        }
        _ => halves,
    }
}
