//! One public call on full tables, and the same record given to the reference.
//!
//! A caller may mark any term as on the wire, so here a chain of encrypted keys
//! can be as long as there are keys, which no file can reach.

use std::hint::black_box;

use lent::{call, Answer, Entry, Tables, CACHE_PLACES};
use reference::file::{read_header, read_record, Header, Record, StepRecord, TermRecord};
use reference::marks::{mark, MAX_PRINCIPALS};
use reference::realm::{self, Realm};
use reference::terms::Shape;

use crate::deliveries;
use crate::exchange::STEP;

/// The longest chain of keys that the intruder has not from the start: session
/// keys 0 to 63 and the long-term keys of 32 good principals.
pub const LINKS: usize = 96;

const HEADER: Header = Header {
    mark: mark(b"HW"),
    principals: MAX_PRINCIPALS,
    flags: 0,
    ticket_life: 9,
    authenticator_life: 9,
};

/// The same tables on both sides.
pub struct Both {
    pub tables: Tables,
    pub realm: Realm,
}

/// In which order the encryptions of a chain stand in the table.
#[derive(Clone, Copy, Debug, PartialEq, Eq)]
pub enum Order {
    /// The one that is opened first stands last: one sweep from the last term to
    /// the first opens them all.
    Best,
    /// The one that is opened first stands first: a sweep opens one.
    Worst,
}

impl Both {
    pub fn new(header: &Header) -> Both {
        Both { tables: lent::tables(header), realm: Realm::new(header.settings()) }
    }

    /// Gives a record to both, which must answer alike.
    pub fn put(&mut self, record: Record) -> Answer {
        let answer = call(&mut self.tables, &record);
        assert_eq!(answer, answered(self.realm.apply(&record)), "{record:?}");
        answer
    }

    fn term(&mut self, kind: u8, left: u16, right: u16) -> u16 {
        match self.put(Record::Term(TermRecord { kind, left, right })) {
            Answer::Old(number) | Answer::New(number) => number,
            answer => panic!("{answer:?}"),
        }
    }

    /// Marks a term as on the wire.
    fn mark(&mut self, term: u16) {
        self.tables.wire[usize::from(term) / 64] |= 1 << (term % 64);
        let message = self.realm.terms.at(term).expect("the term is there").clone();
        self.realm.wire.insert(message);
    }

    /// 64 runs and 16 entries.
    fn fill_runs_and_cache(&mut self) {
        for _ in 0..realm::MAX_RUNS {
            self.put(Record::Step(StepRecord { step: 2, a: 1, b: 2, ..STEP }));
        }
        for k in 0..CACHE_PLACES as u8 {
            self.tables.cache[usize::from(k)] = Entry { b: 2, k: k.into(), ta: 0 };
            let entry = realm::Entry { responder: 2, session_key: k, authenticator_time: 0 };
            self.realm.cache.push(entry);
        }
        self.tables.realm.entries = CACHE_PLACES;
    }
}

pub fn answered(answer: Result<realm::Answer, reference::refusal::Refusal>) -> Answer {
    match answer {
        Ok(realm::Answer::Old(number)) => Answer::Old(number),
        Ok(realm::Answer::New(number)) => Answer::New(number),
        Ok(realm::Answer::Step { run, added }) => {
            Answer::Ok { run: run.map(|run| run as u8), added: added as u16 }
        }
        Err(refusal) => Answer::Refused(refusal.number()),
    }
}

/// A call that leaves the tables as they are.
pub struct Call {
    pub name: &'static str,
    pub both: Both,
    pub record: Record,
    /// Sweeps that a test by the definition takes; none where no term is tested.
    pub sweeps: usize,
    /// All terms that can be derived are asked for, in place of the record.
    pub whole: bool,
}

/// How many calls there are.
pub const CALLS: usize = 6;

/// The number of the purge, and of the call that asks for the whole set.
pub const PURGE: usize = 3;
pub const WHOLE: usize = 4;

/// A call on so many terms, 64 runs and 16 entries. In the first each term is on
/// the wire, so that one look at each is all there is to do; the last is always on
/// 512 terms.
pub fn make(number: usize, terms: usize) -> Call {
    let (name, both, record) = match number {
        0 => ("step 10, every term on the wire", all_known(terms), query(0)),
        1 => chained("step 10, a chain of keys in the best order", terms, Order::Best),
        2 => chained("step 10, a chain of keys in the worst order", terms, Order::Worst),
        PURGE => ("step 8, every entry stays", all_known(terms), purge(2)),
        WHOLE => {
            chained("all that can be derived, a chain in the worst order", terms, Order::Worst)
        }
        _ => delivery(),
    };
    let sweeps = if number == PURGE { 0 } else { sweeps(&both.realm) };
    Call { name, both, record, sweeps, whole: number == WHOLE }
}

fn chained(name: &'static str, terms: usize, order: Order) -> (&'static str, Both, Record) {
    let (both, nonce) = chain(terms, order);
    (name, both, query(nonce))
}

/// What of a call is counted or timed.
#[derive(Clone, Copy, Debug, PartialEq, Eq)]
pub enum Which {
    Engine,
    /// The check of the tables alone, which the reference has not got.
    Check,
    Reference,
}

pub const EACH: [Which; 3] = [Which::Engine, Which::Check, Which::Reference];

impl Which {
    pub fn name(self) -> &'static str {
        match self {
            Which::Engine => "engine",
            Which::Check => "check",
            Which::Reference => "reference",
        }
    }

    pub fn named(name: &str) -> Option<Which> {
        EACH.into_iter().find(|which| which.name() == name)
    }

    /// The function below by the name that callgrind knows it by.
    pub fn symbol(self) -> &'static str {
        match self {
            Which::Engine | Which::Check => "call_of_the_engine",
            Which::Reference => "call_of_the_reference",
        }
    }
}

impl Call {
    /// A call on the same tables that does nothing but the check of the tables:
    /// step 7 to the clock as it is.
    pub fn check(&self) -> Record {
        Record::Step(StepRecord { step: 7, time: self.both.realm.clock, ..STEP })
    }

    pub fn take(&mut self, which: Which) {
        let check = self.check();
        match which {
            Which::Engine => call_of_the_engine(&mut self.both.tables, &self.record, self.whole),
            Which::Check => call_of_the_engine(&mut self.both.tables, &check, false),
            Which::Reference => {
                call_of_the_reference(&mut self.both.realm, &self.record, self.whole)
            }
        }
    }
}

#[no_mangle]
#[inline(never)]
fn call_of_the_engine(tables: &mut Tables, record: &Record, whole: bool) {
    if whole {
        let _ = black_box(black_box(&*tables).known());
    } else {
        black_box(call(tables, black_box(record)));
    }
}

#[no_mangle]
#[inline(never)]
fn call_of_the_reference(realm: &mut Realm, record: &Record, whole: bool) {
    if whole {
        black_box(black_box(&*realm).derivable());
    } else {
        let _ = black_box(realm.apply(black_box(record)));
    }
}

pub fn query(message: u16) -> Record {
    Record::Step(StepRecord { step: 10, message, ..STEP })
}

fn purge(b: u8) -> Record {
    Record::Step(StepRecord { step: 8, b, ..STEP })
}

/// The tables that the row of deliveries fills, and its first delivery.
fn delivery() -> (&'static str, Both, Record) {
    let (walk, records) = deliveries::filled();
    let (header, mut rest) = read_header(&walk.bytes).expect("the header is good");
    let mut both = Both::new(&header);
    while let Some(Ok((record, after))) = read_record(rest) {
        both.put(record);
        rest = after;
    }
    ("step 5 on the tables of the row of deliveries, 18", both, records[0])
}

/// So many terms, all on the wire.
fn all_known(terms: usize) -> Both {
    let mut both = Both::new(&HEADER);
    both.fill_runs_and_cache();
    fill(&mut both, terms);
    both
}

/// A chain: session key 64, which is the intruder's own, opens the first key,
/// each key opens the next, and the last opens nonce 0. It takes at most half of
/// the terms; the others are all on the wire. Gives the number of nonce 0.
pub fn chain(terms: usize, order: Order) -> (Both, u16) {
    let mut both = Both::new(&HEADER);
    both.fill_runs_and_cache();
    let links = LINKS.min(terms / 2 - 2);
    let mut keys = vec![both.term(4, 64, 0)];
    for link in 0..links as u16 {
        keys.push(if link < 64 { both.term(4, link, 0) } else { both.term(3, link - 64, 0) });
    }
    let nonce = both.term(2, 0, 0);
    keys.push(nonce);
    let mut opened: Vec<(u16, u16)> = keys.windows(2).map(|two| (two[1], two[0])).collect();
    if order == Order::Best {
        opened.reverse();
    }
    for (body, key) in opened {
        let encrypted = both.term(6, body, key);
        both.mark(encrypted);
    }
    fill(&mut both, terms);
    (both, nonce)
}

/// Times and pairs of them, all on the wire.
fn fill(both: &mut Both, terms: usize) {
    let mut last = both.term(1, 9, 0);
    both.mark(last);
    while both.realm.terms.count() < terms {
        let count = both.realm.terms.count() as u16;
        last =
            if count.is_multiple_of(2) { both.term(1, 9, count) } else { both.term(5, last, last) };
        both.mark(last);
    }
}

/// How many sweeps from the last term to the first it takes until one adds
/// nothing, that one with it.
pub fn sweeps(realm: &Realm) -> usize {
    let mut known: Vec<bool> =
        realm.terms.present().iter().map(|message| realm.wire.contains(message)).collect();
    let mut sweeps = 0;
    loop {
        sweeps += 1;
        if !sweep(realm, &mut known) {
            return sweeps;
        }
    }
}

fn sweep(realm: &Realm, known: &mut [bool]) -> bool {
    let number = |message| usize::from(realm.terms.number(message).expect("a part is a term"));
    let mut added = false;
    for (term, message) in realm.terms.present().iter().enumerate().rev() {
        if !known[term] {
            continue;
        }
        let parts = match message.shape() {
            Shape::Pair(left, right) => vec![number(left), number(right)],
            Shape::Encrypted(body, key) if known[number(key)] || is_public(realm, key.shape()) => {
                vec![number(body)]
            }
            _ => vec![],
        };
        for part in parts {
            added |= !known[part];
            known[part] = true;
        }
    }
    added
}

fn is_public(realm: &Realm, key: &Shape) -> bool {
    match *key {
        Shape::LongTermKey(principal) => realm.settings.is_bad(principal),
        Shape::SessionKey(number) => number >= reference::intruder::FIRST_OF_INTRUDER,
        _ => false,
    }
}
