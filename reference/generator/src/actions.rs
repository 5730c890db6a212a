//! Records chosen by what the tables hold: messages that fit, that miss by one
//! part, times around the ticks that matter, and fields spoilt one at a time.

use reference::file::{Record, StepRecord};
use reference::realm::{Role, Stage};
use reference::rules::Rules;
use reference::terms::{Message, Shape};

use crate::forms::{self, Kind, Pattern};
use crate::walk::Walk;

const STEP: StepRecord = StepRecord { step: 0, run: 0, a: 0, b: 0, message: 0, time: 0 };

pub fn opening(walk: &mut Walk, step: u8) -> StepRecord {
    let (a, b) = walk.two_clients();
    StepRecord { step, a, b, ..STEP }
}

/// A run that the step can meet if there is one, else any, else none.
pub fn run_for(walk: &mut Walk, step: u8) -> Option<u8> {
    let runs = &walk.realm.runs;
    let fits = |number: &usize| {
        let run = &runs[*number];
        match step {
            4 => (run.role, run.stage) == (Role::Initiator, Stage::Opened),
            5 => (run.role, run.stage) == (Role::Responder, Stage::Opened),
            6 => run.stage == Stage::AfterStep4,
            _ => run.role == Role::Server,
        }
    };
    let fitting: Vec<usize> = (0..runs.len()).filter(fits).collect();
    let count = runs.len();
    if fitting.is_empty() || walk.random.one_in(12) {
        return (count > 0).then(|| walk.random.below(count) as u8);
    }
    Some(walk.random.pick(&fitting) as u8)
}

/// A message for the step in the run: mostly one that fits and was sent, at
/// times one filled in freely, one with a wrong part, or any term.
pub fn message_for(walk: &mut Walk, step: u8, run: u8) -> Option<Message> {
    match walk.random.below(20) {
        0..=12 => sent_for(walk, step, run).or_else(|| filled_for(walk, step, run, false)),
        13..=15 => filled_for(walk, step, run, false),
        16..=18 => filled_for(walk, step, run, true),
        _ => any_term(walk),
    }
}

pub fn any_term(walk: &mut Walk) -> Option<Message> {
    let count = walk.realm.terms.count();
    (count > 0).then(|| walk.realm.terms.present()[walk.random.below(count)].clone())
}

/// A message on the wire that fits, or at step 5 a pair of two that came on it,
/// alone or in a pair; at times, under H5, a part that came with another X. Under H4
/// the ticket of such a pair may still be in the part.
pub fn sent_for(walk: &mut Walk, step: u8, run: u8) -> Option<Message> {
    let mut fitting = match step {
        4 if forms::rules(&walk.realm) == Rules::Beside && walk.random.one_in(4) => {
            joined_with_x(walk)
        }
        5 => joined_by_key(walk),
        _ => walk.wire(),
    };
    let fits = |message: &Message| {
        let key = forms::value(message, "LBL", Kind::SessionKey);
        let form = forms::form(&walk.realm, step, run, key);
        form.is_some_and(|form| forms::fits(&form, message))
    };
    fitting.retain(fits);
    (!fitting.is_empty()).then(|| walk.random.pick(&fitting))
}

/// What may be a ticket, each with what is under its key.
fn joined_by_key(walk: &mut Walk) -> Vec<Message> {
    let sent = walk.sent();
    let tickets = match forms::rules(&walk.realm) {
        Rules::Within => walk.realm.terms.present().to_vec(),
        _ => sent.clone(),
    };
    let mut pairs = Vec::new();
    for ticket in &tickets {
        let Some(key) = forms::value(ticket, "BL", Kind::SessionKey) else { continue };
        for authenticator in &sent {
            if forms::value(authenticator, "K", Kind::SessionKey) == Some(key) {
                pairs.push(walk.realm.terms.pair(ticket.clone(), authenticator.clone()));
            }
        }
    }
    pairs
}

/// What came, each with some X.
fn joined_with_x(walk: &mut Walk) -> Vec<Message> {
    let x = some_x(walk);
    let parts = walk.sent().into_iter();
    parts.map(|part| walk.realm.terms.pair(part, x.clone())).collect()
}

/// A term in the place of a ticket: one that came, any that is present, a ticket of
/// our making, or a principal.
pub fn some_x(walk: &mut Walk) -> Message {
    let sent = walk.sent();
    match walk.random.below(8) {
        0..=2 if !sent.is_empty() => walk.random.pick(&sent),
        3 | 4 if !sent.is_empty() => any_term(walk).expect("what came is a term"),
        5 | 6 => {
            let (a, b) = walk.two_clients();
            let (key, time) = (Shape::SessionKey(some_key(walk)), Shape::Time(some_time(walk)));
            let body = walk.realm.terms.list(&[key, Shape::Principal(a), time]);
            let key = walk.make(Shape::LongTermKey(b));
            walk.realm.terms.encrypt(body, key)
        }
        _ => {
            let principal = Shape::Principal(walk.client());
            walk.make(principal)
        }
    }
}

/// A message of the step's form with values of our choice; with one part put
/// wrong if asked for.
pub fn filled_for(walk: &mut Walk, step: u8, run: u8, wrong: bool) -> Option<Message> {
    let key = u32::from(some_key(walk));
    let form = forms::form(&walk.realm, step, run, Some(key))?;
    Some(filled(walk, &form, wrong))
}

/// A message of this form, or with one part put wrong.
pub fn filled(walk: &mut Walk, form: &Pattern, wrong: bool) -> Message {
    let mut parts_until_wrong = if wrong { Some(walk.random.below(size(form))) } else { None };
    fill(walk, form, &mut parts_until_wrong)
}

fn size(pattern: &Pattern) -> usize {
    match pattern {
        Pattern::Any | Pattern::Atom(..) => 1,
        Pattern::Pair(first, second) | Pattern::Lock(first, second) => {
            1 + size(first) + size(second)
        }
    }
}

/// Counts the parts down; the one at 0 becomes something else, but for X, which may
/// be anything.
fn fill(walk: &mut Walk, pattern: &Pattern, until_wrong: &mut Option<usize>) -> Message {
    let wrong = *until_wrong == Some(0);
    *until_wrong = until_wrong.and_then(|left| left.checked_sub(1));
    match pattern {
        Pattern::Any => some_x(walk),
        Pattern::Atom(kind, value) => {
            let value = value.unwrap_or_else(|| some_value(walk, *kind));
            let (kind, value) = if wrong { other_atom(walk, *kind, value) } else { (*kind, value) };
            walk.make(forms::shape(kind, value))
        }
        Pattern::Pair(left, right) => {
            let (left, right) = (fill(walk, left, until_wrong), fill(walk, right, until_wrong));
            if wrong {
                left
            } else {
                walk.realm.terms.pair(left, right)
            }
        }
        Pattern::Lock(body, key) => {
            let (body, mut key) = (fill(walk, body, until_wrong), fill(walk, key, until_wrong));
            if key.long_term_key().is_none() && key.session_key().is_none() {
                key = walk.make(Shape::SessionKey(some_key_number(key)));
            }
            if wrong {
                body
            } else {
                walk.realm.terms.encrypt(body, key)
            }
        }
    }
}

/// A key was put wrong in kind: the other kind of key with a near number.
fn some_key_number(part: Message) -> u8 {
    forms::atom(&part).map_or(1, |(_, value)| (value % 16) as u8)
}

fn other_atom(walk: &mut Walk, kind: Kind, value: u32) -> (Kind, u32) {
    let limit = match kind {
        Kind::Principal | Kind::LongTermKey => u32::from(walk.principals()),
        Kind::Nonce | Kind::SessionKey => 96,
        Kind::Time => u32::MAX,
    };
    if walk.random.one_in(2) {
        return (kind, value.wrapping_add(1) % limit);
    }
    let n = u32::from(walk.principals());
    match kind {
        Kind::Principal | Kind::Time => (Kind::Nonce, value % 96),
        Kind::Nonce => (Kind::Principal, value % n),
        Kind::LongTermKey => (Kind::SessionKey, value),
        Kind::SessionKey => (Kind::LongTermKey, value % n),
    }
}

fn some_value(walk: &mut Walk, kind: Kind) -> u32 {
    match kind {
        Kind::Principal if walk.random.one_in(8) => 0,
        Kind::Principal | Kind::LongTermKey => walk.client().into(),
        Kind::Time => some_time(walk),
        Kind::Nonce => some_nonce(walk).into(),
        Kind::SessionKey => some_key(walk).into(),
    }
}

/// A server's key, one of the intruder's, or any.
pub fn some_key(walk: &mut Walk) -> u8 {
    let servers = |(number, run): (usize, &reference::realm::Run)| {
        (run.role == Role::Server).then_some(number as u8)
    };
    let keys: Vec<u8> = walk.realm.runs.iter().enumerate().filter_map(servers).collect();
    match walk.random.below(8) {
        0..=4 if !keys.is_empty() => walk.random.pick(&keys),
        0..=6 => walk.random.between(64, 66) as u8,
        _ => walk.random.between(0, 95) as u8,
    }
}

fn some_nonce(walk: &mut Walk) -> u8 {
    let runs = walk.realm.runs.len() as u32;
    match walk.random.below(6) {
        0..=2 => walk.random.between(0, runs) as u8,
        3..=4 => walk.random.between(64, 95) as u8,
        _ => walk.random.between(0, 95) as u8,
    }
}

/// A time at or next to one that matters: the clock, a time held by a run or an
/// entry, the end of a life, and the ends of the range.
pub fn some_time(walk: &mut Walk) -> u32 {
    let settings = walk.realm.settings;
    let (ls, la) = (u64::from(settings.ticket_life), u64::from(settings.authenticator_life));
    let clock = u64::from(walk.realm.clock);
    let mut times = vec![clock, clock, clock + 1, clock + la];
    times.extend([ls, la].map(|life| clock.saturating_sub(life)));
    for held in walk.realm.runs.iter().filter_map(|run| run.held) {
        let ts = u64::from(held.ticket_time);
        times.extend([ts, ts + ls]);
        if let Some(ta) = held.authenticator_time {
            times.extend([u64::from(ta), u64::from(ta) + la]);
        }
    }
    if walk.random.one_in(20) {
        times = vec![0, u64::from(u32::MAX), u64::from(walk.random.number() as u32)];
    }
    let nudge = walk.random.pick(&[0, 0, 0, 1, 2]);
    (walk.random.pick(&times) + nudge).saturating_sub(1).min(u64::from(u32::MAX)) as u32
}

/// A time for step 7 that seldom goes back.
pub fn next_clock(walk: &mut Walk) -> u32 {
    let time = some_time(walk);
    if time < walk.realm.clock && !walk.random.one_in(4) {
        return walk.realm.clock.saturating_add(walk.random.between(0, 2));
    }
    time
}

/// A good record of the step, its message spelt out before it; `None` if the
/// tables have nothing for it.
pub fn aimed(walk: &mut Walk, step: u8) -> Option<StepRecord> {
    let record = StepRecord { step, ..STEP };
    Some(match step {
        1 | 2 => opening(walk, step),
        3..=6 => {
            let run = if step == 3 { 0 } else { run_for(walk, step)? };
            let message = message_for(walk, step, run)?;
            StepRecord { run, message: walk.spell(&message)?, ..record }
        }
        7 => StepRecord { time: next_clock(walk), ..record },
        8 => StepRecord {
            b: walk.random.between(0, u32::from(walk.principals()) - 1) as u8,
            ..record
        },
        9 => StepRecord { run: run_for(walk, 9)?, ..record },
        _ => {
            let message = any_term(walk)?;
            StepRecord { message: walk.spell(&message)?, ..record }
        }
    })
}

/// Spoils one field, or two: unused ones set, used ones out of range.
pub fn spoilt(walk: &mut Walk, mut record: StepRecord) -> StepRecord {
    for _ in 0..walk.random.pick(&[1, 1, 1, 2]) {
        let runs = walk.realm.runs.len() as u8;
        let terms = walk.realm.terms.count() as u16;
        let n = walk.principals();
        let random = &mut walk.random;
        match random.below(5) {
            0 => record.run = random.pick(&[1, runs, runs, runs.wrapping_add(1), 255]),
            1 => record.a = random.pick(&[0, 1, n, n, record.b, 255]),
            2 => record.b = random.pick(&[0, 1, n, n, record.a, 255]),
            3 => record.message = random.pick(&[1, terms, terms, terms.wrapping_add(1), 65535]),
            _ => record.time = random.pick(&[1, 65_536, u32::MAX]),
        }
    }
    record
}

/// A TM record: of a random kind with fields in and next to their range.
pub fn any_term_record(walk: &mut Walk) -> Record {
    let n = u16::from(walk.principals());
    let count = walk.realm.terms.count() as u16;
    let random = &mut walk.random;
    let kind = random.pick(&[0, 1, 2, 3, 4, 5, 5, 5, 6, 6, 6, random.clone().byte() % 9]);
    let mut field = |limit: u16| match random.below(16) {
        0 => limit,
        1 => limit.saturating_add(random.below(300) as u16),
        2 => limit.saturating_sub(1),
        _ => random.below(usize::from(limit).max(1)) as u16,
    };
    let (left, mut right) = match kind {
        0 | 3 => (field(n), 0),
        1 => (field(2), field(8)),
        2 | 4 => (field(96), 0),
        _ => (field(count), field(count)),
    };
    if right == 0 && random.one_in(16) {
        right = 1;
    }
    Record::Term(reference::file::TermRecord { kind, left, right })
}

/// The TM record of a term that is present, each kind as likely as another; at
/// times with R spoilt.
pub fn term_again(walk: &mut Walk) -> Option<Record> {
    let kind = walk.random.below(7) as u8;
    let mut terms = walk.realm.terms.present().to_vec();
    terms.retain(|term| walk.term_record(term).kind == kind);
    if terms.is_empty() {
        return None;
    }
    let term = walk.random.pick(&terms);
    let mut record = walk.term_record(&term);
    if walk.random.one_in(4) {
        record.right = record.right.wrapping_add(1);
    }
    Some(Record::Term(record))
}
