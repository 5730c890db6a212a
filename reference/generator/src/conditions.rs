//! All refusals that apply to a record, not only the first. Each condition is
//! asked on its own as far as its inputs are there, so this is also a second
//! reading of the paper's two tables: the first of them must be the answer.

use std::collections::HashSet;

use reference::file::{Record, StepRecord, TermRecord};
use reference::realm::{Entry, Realm, Role, Run, Stage, MAX_ENTRIES, MAX_RUNS};
use reference::terms::{Message, MAX_TERMS};

use crate::carried_cells::under;
use crate::forms::{self, Kind, Sends};

/// What is so before the record is taken.
#[derive(Default)]
pub struct Facts {
    /// The numbers of all refusals that apply, in the order in which they are
    /// looked at.
    pub applies: Vec<u8>,
    /// For 5, 6, 11 and 14, which of their conditions apply.
    pub details: Vec<(u8, String)>,
    /// The run that the record names, if present.
    pub run: Option<Run>,
    /// The message that the record names, if present.
    pub message: Option<Message>,
    /// a, b, N, K, Ts and Ta as the step would read them, if m fits.
    pub read: Option<Read>,
    pub derivable: bool,
    /// How many terms the record would add.
    pub new_terms: Option<usize>,
    pub free_terms: usize,
    /// What the record would put on the wire.
    pub sends: Vec<Message>,
}

#[derive(Clone, Copy, Default)]
pub struct Read {
    pub a: u8,
    pub b: u8,
    pub nonce: u8,
    pub key: u8,
    pub ts: Option<u32>,
    pub ta: Option<u32>,
    /// The number of X, which is a term as m is.
    pub x: Option<u16>,
}

impl Facts {
    fn refuse(&mut self, number: u8, detail: &str) {
        if !self.applies.contains(&number) {
            self.applies.push(number);
        }
        self.details.push((number, detail.to_string()));
    }

    fn refuse_if(&mut self, condition: bool, number: u8, detail: &str) {
        if condition {
            self.refuse(number, detail);
        }
    }

    /// The condition of a refusal that applies, if only one does.
    pub fn only_detail(&self, number: u8) -> Option<&str> {
        let mut found = self.details.iter().filter(|(n, _)| *n == number);
        let (_, detail) = found.next()?;
        (found.next().is_none() && !detail.is_empty()).then_some(detail)
    }
}

pub fn facts(realm: &mut Realm, record: &Record) -> Facts {
    let mut facts = Facts { free_terms: MAX_TERMS - realm.terms.count(), ..Facts::default() };
    match record {
        Record::Term(record) => term_facts(realm, record, &mut facts),
        Record::Step(record) => step_facts(realm, record, &mut facts),
    }
    facts.applies.sort_by_key(|number| place_of(*number));
    facts
}

/// "10 is looked at first, the others in rising order", and 22 "after 17 and
/// before 18".
fn place_of(number: u8) -> (u8, u8) {
    match number {
        10 => (0, 0),
        22 => (17, 1),
        _ => (number, 0),
    }
}

fn term_facts(realm: &Realm, record: &TermRecord, facts: &mut Facts) {
    let TermRecord { kind, left, right } = *record;
    facts.refuse_if(kind > 6, 4, "");
    if kind > 6 {
        return;
    }
    facts.refuse_if([0, 2, 3, 4].contains(&kind) && right != 0, 5, "R");
    let n = u16::from(realm.settings.principals);
    let count = realm.terms.count() as u16;
    match kind {
        0 | 3 => {
            facts.refuse_if(left == n, 6, "L is n");
            facts.refuse_if(left > n, 6, "L above n");
        }
        2 | 4 => {
            facts.refuse_if(left == 96, 6, "L is 96");
            facts.refuse_if(left > 96, 6, "L above 96");
        }
        5 | 6 => {
            facts.refuse_if(left >= count, 6, "L not present");
            facts.refuse_if(right >= count, 6, "R not present");
        }
        _ => {}
    }
    if kind == 6 && right < count {
        let key = forms::atom(&realm.terms.present()[usize::from(right)]);
        let is_key = matches!(key, Some((Kind::LongTermKey | Kind::SessionKey, _)));
        facts.refuse_if(!is_key, 6, "R no key");
    }
    let present = is_present(realm, record);
    facts.new_terms = Some(usize::from(!present));
    facts.refuse_if(!present && facts.free_terms == 0, 20, "");
}

/// Is the term that the record names present? Searched through the table.
fn is_present(realm: &Realm, record: &TermRecord) -> bool {
    let TermRecord { kind, left, right } = *record;
    let number = |part: &Message| realm.terms.number(part);
    realm.terms.present().iter().any(|message| match forms::atom(message) {
        Some((found, value)) => {
            let wanted =
                if kind == 1 { u32::from(left) << 16 | u32::from(right) } else { left.into() };
            found as u8 == kind && value == wanted
        }
        None => {
            let parts = if kind == 5 { message.pair() } else { message.encrypted() };
            parts.is_some_and(|(l, r)| {
                kind >= 5 && number(l) == Some(left) && number(r) == Some(right)
            })
        }
    })
}

fn step_facts(realm: &mut Realm, record: &StepRecord, facts: &mut Facts) {
    let step = record.step;
    if !(1..=10).contains(&step) {
        return facts.refuse(4, "");
    }
    input_facts(realm, record, facts);
    if facts.applies.contains(&6) {
        // 13 can be asked although the fields are bad; the others need them.
        facts.refuse_if(step <= 3 && realm.runs.len() == MAX_RUNS, 13, "");
        if [4, 5, 6, 9].contains(&step) {
            stage_facts(step, facts);
        }
        return;
    }
    stage_facts(step, facts);
    facts.refuse_if(step == 7 && record.time < realm.clock, 12, "");
    facts.refuse_if(step <= 3 && realm.runs.len() == MAX_RUNS, 13, "");
    if step == 1 {
        facts.read = Some(Read { a: record.a, b: record.b, ..Read::default() });
    }
    if let Some(message) = facts.message.clone() {
        message_facts(realm, record, &message, facts);
    }
    if let Some(read) = facts.read {
        expiry_facts(realm, step, read, facts);
        room_facts(realm, step, read, facts);
    }
}

/// 5 and 6, with the fields looked at one by one.
fn input_facts(realm: &Realm, record: &StepRecord, facts: &mut Facts) {
    let step = record.step;
    let fields = [
        ("run", u32::from(record.run), [4, 5, 6, 9].contains(&step)),
        ("a", record.a.into(), step <= 2),
        ("b", record.b.into(), step <= 2 || step == 8),
        ("m", record.message.into(), [3, 4, 5, 6, 10].contains(&step)),
        ("t", record.time, step == 7),
    ];
    for (name, value, used) in fields {
        facts.refuse_if(!used && value != 0, 5, name);
    }
    let limits = [
        u32::from(realm.runs.len() as u8),
        realm.settings.principals.into(),
        realm.settings.principals.into(),
        realm.terms.count() as u32,
        u32::MAX,
    ];
    for ((name, value, used), limit) in fields.into_iter().zip(limits) {
        let bad = used && name != "t" && value >= limit;
        let detail = if value == limit { "the first" } else { "far" };
        facts.refuse_if(bad, 6, &format!("{name} not present, {detail}"));
    }
    if step <= 2 {
        facts.refuse_if(record.a == 0, 6, "a is 0");
        facts.refuse_if(record.b == 0, 6, "b is 0");
        facts.refuse_if(record.a == record.b, 6, "a equals b");
    }
    if [4, 5, 6, 9].contains(&step) {
        facts.run = realm.runs.get(usize::from(record.run)).copied();
    }
    if [3, 4, 5, 6, 10].contains(&step) {
        facts.message = realm.terms.at(record.message).cloned();
    }
}

fn stage_facts(step: u8, facts: &mut Facts) {
    let Some(run) = facts.run else { return };
    let needed = match step {
        4 => (Role::Initiator, Stage::Opened),
        5 => (Role::Responder, Stage::Opened),
        6 => (Role::Initiator, Stage::AfterStep4),
        _ => (Role::Server, Stage::Done),
    };
    let detail = format!("{:?} {:?}", run.role, run.stage);
    facts.refuse_if((run.role, run.stage) != needed, 11, &detail);
}

/// 14 and 15, and what the message says if it fits.
fn message_facts(realm: &Realm, record: &StepRecord, message: &Message, facts: &mut Facts) {
    let step = record.step;
    facts.derivable = realm.derivable().contains(message);
    facts.refuse_if(!facts.derivable, 15, "");
    if step == 10 {
        return;
    }
    let key = forms::value(message, "LBL", Kind::SessionKey);
    let (run, rules) = (facts.run, forms::rules(realm));
    let Some(form) = forms::form(realm, step, record.run, key) else { return };
    let mut misfits = forms::misfits(&form, message, "");
    let at = |place: &str, kind| forms::value(message, place, kind);
    let small = |place: &str, kind| at(place, kind).unwrap_or(0) as u8;
    let mut read = Read::default();
    match step {
        3 => {
            (read.a, read.b) = (small("L", Kind::Principal), small("RL", Kind::Principal));
            read.nonce = small("RR", Kind::Nonce);
            let barred = [
                ("a is 0", read.a == 0),
                ("b is 0", read.b == 0),
                ("a equals b", read.a == read.b),
            ];
            if misfits.is_empty() {
                misfits
                    .extend(barred.iter().filter(|(_, is)| *is).map(|(name, _)| name.to_string()));
            }
        }
        4 => {
            let (part, x) = forms::places(rules);
            read.key = small(&format!("{part}BL"), Kind::SessionKey);
            read.ts = at(&format!("{part}BRRL"), Kind::Time);
            let x = x.and_then(|place| forms::part(message, place));
            read.x = x.and_then(|x| realm.terms.number(x));
        }
        5 => {
            (read.key, read.ts) = (small("LBL", Kind::SessionKey), at("LBRR", Kind::Time));
            read.ta = at("RBR", Kind::Time);
        }
        _ => {}
    }
    if let Some(run) = run {
        (read.a, read.b) = (run.a, run.b);
        if let (6, Some(held)) = (step, run.held) {
            (read.key, read.ts, read.ta) =
                (held.session_key, Some(held.ticket_time), held.authenticator_time);
        }
    }
    // At step 6 Ts is the run's, so 16 can be asked whatever m is.
    if misfits.is_empty() || step == 6 {
        facts.read = Some(read);
    }
    let set = if step == 4 { under(rules) } else { String::new() };
    for misfit in misfits {
        facts.refuse(14, &format!("{set}{misfit}"));
    }
}

fn over(realm: &Realm, start: Option<u32>, life: u32) -> bool {
    start.is_some_and(|start| u64::from(start) + u64::from(life) <= u64::from(realm.clock))
}

fn ahead(realm: &Realm, time: Option<u32>, life: u32) -> bool {
    time.is_some_and(|time| u64::from(realm.clock) + u64::from(life) < u64::from(time))
}

/// 16 to 19, and 22.
fn expiry_facts(realm: &Realm, step: u8, read: Read, facts: &mut Facts) {
    let settings = realm.settings;
    facts.refuse_if((4..=6).contains(&step) && over(realm, read.ts, settings.ticket_life), 16, "");
    if step != 5 {
        return;
    }
    facts.refuse_if(over(realm, read.ta, settings.authenticator_life), 17, "");
    facts.refuse_if(ahead(realm, read.ta, settings.authenticator_life), 22, "");
    let same = |e: &Entry| {
        (e.responder, e.session_key, Some(e.authenticator_time)) == (read.b, read.key, read.ta)
    };
    facts.refuse_if(realm.cache.iter().any(same), 18, "");
    facts.refuse_if(realm.cache.len() == MAX_ENTRIES, 19, "");
}

/// 20.
fn room_facts(realm: &mut Realm, step: u8, read: Read, facts: &mut Facts) {
    facts.sends = sends(realm, step, read);
    let new_terms = parts_not_present(realm, facts.sends.clone());
    facts.new_terms = Some(new_terms);
    facts.refuse_if(new_terms > facts.free_terms, 20, "");
}

/// What the step would send.
pub fn sends(realm: &mut Realm, step: u8, read: Read) -> Vec<Message> {
    let Read { a, b, nonce, key, ta, x, .. } = read;
    let x = x.and_then(|number| realm.terms.at(number).cloned());
    Sends { a, b, nonce, key, ta: ta.unwrap_or(0), x }.messages(realm, step)
}

/// How many parts of the messages are no terms yet, each counted once.
fn parts_not_present(realm: &Realm, messages: Vec<Message>) -> usize {
    let mut parts = HashSet::new();
    let mut todo = messages;
    while let Some(message) = todo.pop() {
        if let Some((first, second)) = message.pair().or(message.encrypted()) {
            todo.extend([first.clone(), second.clone()]);
        }
        parts.insert(message);
    }
    parts.iter().filter(|part| realm.terms.number(part).is_none()).count()
}
