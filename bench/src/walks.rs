//! The walk files of the rows. A long file starts with records that fill the
//! tables; those after them leave the tables as they are, but for the clock where
//! it moves, so that twice as many are twice the work.

use generator::random::Random;
use generator::walk::Walk;
use generator::{damage, scenes};
use reference::file::{Header, Record, StepRecord, TermRecord, MAX_FILE_BYTES};
use reference::marks::{mark, MAX_PRINCIPALS};
use reference::realm::{MAX_ENTRIES, MAX_RUNS};
use reference::terms::MAX_TERMS;
use reference::writing::record_bytes;

use crate::exchange::{accepted, opens, term, tick, walk, Exchange, STEP};
use crate::{deliveries, principals, sending};

pub const SMALL_FILES: usize = 10_000;
pub const SMALL_BYTES: usize = 600;
pub const DAMAGED_FILES: usize = 8_000;
pub const SENDING_FILES: usize = 96;
pub const SEED: u64 = 1;

/// All principals are good.
pub const GOOD: Header = Header {
    mark: mark(b"HD"),
    principals: 16,
    flags: 0,
    ticket_life: 100,
    authenticator_life: 10,
};

/// The walk's records, then `eighths` eighths of those that a file has room for
/// after them.
fn extended(walk: Walk, eighths: usize, next: impl Fn(usize) -> Record) -> Vec<u8> {
    let mut ends = vec![walk.bytes.len()];
    let mut bytes = walk.bytes;
    for number in 0.. {
        let record = record_bytes(&next(number));
        if bytes.len() + record.len() > MAX_FILE_BYTES {
            break;
        }
        bytes.extend(record);
        ends.push(bytes.len());
    }
    bytes.truncate(ends[(ends.len() - 1) / 8 * eighths]);
    bytes
}

fn cycle(records: Vec<Record>) -> impl Fn(usize) -> Record {
    move |number| records[number % records.len()]
}

/// 21 exchanges of good principals, one a tick, and old entries forgotten. Then
/// the messages of the last again and again, as a network doubles them, to their
/// runs and to a second responder, with clock steps and purges.
pub fn honest(eighths: usize) -> Vec<u8> {
    honest_under(b"HD", eighths)
}

/// The same under another mark, by its rule set.
pub fn honest_under(letters: &[u8; 2], eighths: usize) -> Vec<u8> {
    let mut walk = walk(Header { mark: mark(letters), ..GOOD });
    let mut exchanges: Vec<Exchange> = Vec::new();
    let mut confirms = STEP;
    for number in 0..MAX_RUNS as u8 / 3 {
        let exchange = Exchange::prepare(&mut walk, 1 + number % 15, 1 + (number + 4) % 15);
        confirms = exchange.complete(&mut walk);
        exchanges.push(exchange);
        tick(&mut walk);
        if let Some(old) = exchanges.iter().rev().nth(9) {
            accepted(&mut walk, StepRecord { step: 8, b: old.b, ..STEP });
        }
    }
    let Some(Exchange { a, b, initiator, reply, ticket, authenticator, delivery, .. }) =
        exchanges.pop()
    else {
        unreachable!("there are exchanges")
    };
    let second = opens(&mut walk, StepRecord { step: 2, a, b, ..STEP });
    let records = vec![
        Record::Step(StepRecord { step: 7, time: walk.realm.clock, ..STEP }),
        Record::Step(StepRecord { step: 4, run: initiator, message: reply, ..STEP }),
        Record::Term(TermRecord { kind: 5, left: ticket, right: authenticator }),
        Record::Step(StepRecord { step: 5, run: second, message: delivery, ..STEP }),
        Record::Step(confirms),
        Record::Step(StepRecord { step: 8, b, ..STEP }),
    ];
    extended(walk, eighths, cycle(records))
}

pub fn header_alone() -> Vec<u8> {
    walk(GOOD).bytes
}

/// Adds times and pairs until the term table is full.
pub fn fill_terms(walk: &mut Walk) {
    for number in 1.. {
        let count = walk.realm.terms.count();
        if count == MAX_TERMS {
            return;
        }
        if number % 3 == 0 {
            term(walk, 5, (number * 7 % count) as u16, (number * 11 % count) as u16);
        } else {
            term(walk, 1, 1, number as u16);
        }
    }
}

/// The term table full of all kinds.
fn full_of_terms() -> Walk {
    let mut walk = walk(GOOD);
    for p in 0..16 {
        term(&mut walk, 0, p, 0);
        term(&mut walk, 3, p, 0);
    }
    for i in 0..96 {
        let nonce = term(&mut walk, 2, i, 0);
        let key = term(&mut walk, 4, i, 0);
        term(&mut walk, 6, nonce, key);
    }
    fill_terms(&mut walk);
    walk
}

/// Then terms that are there, all over the table, and in every second record one
/// that is not and gets 20.
pub fn terms_only(eighths: usize) -> Vec<u8> {
    let walk = full_of_terms();
    let present: Vec<TermRecord> =
        walk.realm.terms.present().iter().map(|message| walk.term_record(message)).collect();
    extended(walk, eighths, move |number| {
        Record::Term(match number % 4 {
            0 | 2 => present[number * 37 % MAX_TERMS],
            1 => TermRecord { kind: 1, left: 2, right: number as u16 },
            _ => absent_pair(number),
        })
    })
}

/// A pair of a term of the first 16 and one of the last: no such pair is made
/// before the table is full.
fn absent_pair(number: usize) -> TermRecord {
    let (left, right) = (number / 4 % 16, 511 - number / 64 % 150);
    TermRecord { kind: 5, left: left as u16, right: right as u16 }
}

/// Then the first term of the table again and again: a search from the last term
/// to the first finds it last.
pub fn first_term(eighths: usize) -> Vec<u8> {
    let walk = full_of_terms();
    let first = walk.term_record(&walk.realm.terms.present()[0]);
    extended(walk, eighths, cycle(vec![Record::Term(first)]))
}

/// Deliveries on full tables, in `deliveries.rs`.
pub fn deliveries(eighths: usize) -> Vec<u8> {
    let (walk, records) = deliveries::filled();
    extended(walk, eighths, cycle(records))
}

/// Two towers of shared terms that fill the table: pairs of the last two terms,
/// over principals and so derivable, and pairs and encryptions with those on the
/// left, over a nonce that the intruder has not. Then step 10 on their tops and
/// middles.
pub fn deep(eighths: usize) -> Vec<u8> {
    let mut walk = walk(GOOD);
    let own = term(&mut walk, 4, 64, 0);
    let mut known = vec![term(&mut walk, 0, 1, 0), term(&mut walk, 0, 2, 0)];
    let mut unknown = vec![term(&mut walk, 2, 0, 0)];
    while walk.realm.terms.count() + 2 <= MAX_TERMS {
        let top = known.len() - 1;
        known.push(term(&mut walk, 5, known[top], known[top - 1]));
        let below = unknown[unknown.len() - 1];
        unknown.push(if unknown.len() % 4 == 0 {
            term(&mut walk, 6, below, own)
        } else {
            term(&mut walk, 5, known[top + 1], below)
        });
    }
    let asked = [
        known[known.len() - 1],
        unknown[unknown.len() - 1],
        known[known.len() / 2],
        unknown[unknown.len() / 2],
    ];
    let asks = |message| Record::Step(StepRecord { step: 10, message, ..STEP });
    extended(walk, eighths, cycle(asked.map(asks).to_vec()))
}

/// 16 exchanges with eight responders; their entries outlive the file. Then ticks,
/// and on each a purge for every principal.
pub fn purges(eighths: usize) -> Vec<u8> {
    let (mark, principals) = (mark(b"HW"), MAX_PRINCIPALS);
    let header = Header { mark, principals, authenticator_life: 1_000, ..GOOD };
    let mut walk = walk(header);
    for number in 0..MAX_ENTRIES as u8 {
        Exchange::prepare(&mut walk, 1 + number, 24 + number % 8).complete(&mut walk);
        tick(&mut walk);
    }
    let clock = walk.realm.clock;
    extended(walk, eighths, move |number| {
        let a_tick = 1 + usize::from(principals);
        let (ticks, place) = (number / a_tick, number % a_tick);
        Record::Step(match place {
            0 => StepRecord { step: 7, time: clock + 1 + ticks as u32, ..STEP },
            _ => StepRecord { step: 8, b: place as u8 - 1, ..STEP },
        })
    })
}

/// A realm of 32 principals, in `principals.rs`. The clock moves.
pub fn principals(eighths: usize) -> Vec<u8> {
    let (walk, next) = principals::filled();
    extended(walk, eighths, next)
}

pub const LONG: [fn(usize) -> Vec<u8>; 5] = [honest, terms_only, first_term, deliveries, deep];

pub fn long(eighths: usize) -> Vec<Vec<u8>> {
    LONG.map(|make| make(eighths)).into()
}

/// Short walks with bytes damaged, bad headers, random records, random bytes.
pub fn damaged(eighths: usize) -> Vec<Vec<u8>> {
    let file = |number: u64| {
        let mut random = Random::new(SEED, number);
        match number % 4 {
            0 => scenes::damaged(&mut random),
            1 => damage::bad_header(&mut random),
            2 => damage::random_records(&mut random),
            _ => damage::random_bytes(&mut random),
        }
    };
    (0..(DAMAGED_FILES / 8 * eighths) as u64).map(file).collect()
}

/// Generated files of at most `SMALL_BYTES`, of every kind that the generator
/// makes.
pub fn small(eighths: usize) -> Vec<Vec<u8>> {
    (0..)
        .map(|number| generator::walk_file(SEED, number))
        .filter(|file| file.len() <= SMALL_BYTES)
        .take(SMALL_FILES / 8 * eighths)
        .collect()
}

/// Walks whose steps send, in `sending.rs`.
pub fn sending(eighths: usize) -> Vec<Vec<u8>> {
    (0..(SENDING_FILES / 8 * eighths) as u64).map(sending::file).collect()
}
