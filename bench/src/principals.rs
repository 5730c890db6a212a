//! A realm of 32 principals, seven of them bad: 64 runs, 512 terms, 16 entries.
//!
//! Of 21 exchanges, between all principals but the server, two are so old that
//! their tickets are over, 16 are done and in the cache, and three wait. The
//! intruder has the session keys of those with a bad principal in them.

use generator::walk::Walk;
use reference::file::{Header, Record, StepRecord};
use reference::marks::{mark, MAX_PRINCIPALS};
use reference::terms::Shape;

use crate::exchange::{accepted, encrypted, opens, spelt, term, tick, walk, Exchange, STEP};
use crate::walks::fill_terms;

/// Principals 4, 8, 12 and so on up to 28 are bad. What is alive when the tables
/// are full is so for more ticks than the file has.
const HEADER: Header = Header {
    mark: mark(b"HW"),
    principals: MAX_PRINCIPALS,
    flags: 0x1111_1110,
    ticket_life: 1_000,
    authenticator_life: 500,
};

/// Exchanges whose initiators wait for the reply, and for the confirmation. The
/// old ones are 0 and 1.
const WITHOUT_KEY: [usize; 3] = [0, 19, 20];
const UNCONFIRMED: [usize; 2] = [1, 18];

/// Exchanges that have a second responder: of one or two bad principals in the
/// first three, of good ones in the last.
const SECOND: [usize; 4] = [5, 6, 11, 12];

/// Above the clock by more than the life of an authenticator.
const AHEAD: u32 = 1_000_000;

/// The walk that fills the tables, and the records that then repeat: of four, two
/// deliveries, a question of the intruder's and a purge, but for every eighth
/// purge a clock step.
pub fn filled() -> (Walk, impl Fn(usize) -> Record) {
    let mut walk = walk(HEADER);
    let mut exchanges: Vec<Exchange> = (0..2).map(|number| exchange(&mut walk, number)).collect();
    accepted(&mut walk, StepRecord { step: 7, time: HEADER.ticket_life, ..STEP });
    exchanges.extend((2..21).map(|number| exchange(&mut walk, number)));
    let mut deliveries = doubled(&mut walk, &exchanges);
    deliveries.extend(awaited(&mut walk, &exchanges));
    let questions = questions(&mut walk, &exchanges);
    fill_terms(&mut walk);
    let clock = walk.realm.clock;
    let next = move |number: usize| match (number % 4, number % 32) {
        (0 | 2, _) => deliveries[number / 2 % deliveries.len()],
        (1, _) => questions[number / 4 % questions.len()],
        (_, 31) => StepRecord { step: 7, time: clock + 1 + (number / 32) as u32, ..STEP },
        _ => StepRecord { step: 8, b: 1 + (number / 4 % 31) as u8, ..STEP },
    };
    (walk, move |number| Record::Step(next(number)))
}

/// As far as it comes. Any 16 in turn are between all principals but the server.
fn exchange(walk: &mut Walk, number: usize) -> Exchange {
    let principal = |place: usize| 1 + (place * 7 % 31) as u8;
    let mut exchange = Exchange::between(principal(number), principal(number + 16));
    exchange.asks(walk);
    exchange.is_served(walk);
    if WITHOUT_KEY.contains(&number) {
        return exchange;
    }
    exchange.takes_key(walk);
    exchange.meets(walk);
    if !UNCONFIRMED.contains(&number) {
        exchange.complete(walk);
        tick(walk);
    }
    exchange
}

/// To second responders: the delivery again (18), the ticket with authenticators
/// of other times (17, 19 and 22, or 15 where the intruder has not the key), and
/// the delivery of the next exchange (14). To the initiator: the reply again (11).
fn doubled(walk: &mut Walk, exchanges: &[Exchange]) -> Vec<StepRecord> {
    let mut records = Vec::new();
    for number in SECOND {
        let exchange = &exchanges[number];
        let run = opens(walk, StepRecord { step: 2, a: exchange.a, b: exchange.b, ..STEP });
        let times = [0, walk.realm.clock, AHEAD];
        let mut messages = times.map(|time| exchange.delivery_at(walk, time)).to_vec();
        messages.extend([exchange.delivery, exchanges[number + 1].delivery]);
        records.extend(messages.iter().map(|&message| StepRecord {
            step: 5,
            run,
            message,
            ..STEP
        }));
        records.push(exchange.takes());
    }
    records
}

/// To runs that wait: replies (16, 20) and what the intruder would have instead
/// (15), deliveries (16, 19) and confirmations that nobody sent (16, 15).
fn awaited(walk: &mut Walk, exchanges: &[Exchange]) -> Vec<StepRecord> {
    let mut records = Vec::new();
    for exchange in WITHOUT_KEY.map(|number| &exchanges[number]) {
        let (b, clock) = (Shape::Principal(exchange.b), Shape::Time(walk.realm.clock));
        let body = [Shape::SessionKey(64), b, clock, Shape::Nonce(exchange.initiator)];
        let guess = encrypted(walk, &body, Shape::LongTermKey(exchange.a));
        let message = spelt(walk, &guess);
        records.extend([exchange.takes(), StepRecord { message, ..exchange.takes() }]);
    }
    for (number, time) in UNCONFIRMED.into_iter().zip([0, walk.realm.clock]) {
        let exchange = &exchanges[number];
        records.extend([exchange.delivers(), exchange.confirms_at(walk, time)]);
    }
    records
}

/// Step 10 on a note of every principal under its own key, and on the session key
/// and the reply of every exchange.
fn questions(walk: &mut Walk, exchanges: &[Exchange]) -> Vec<StepRecord> {
    let mut asked = Vec::new();
    for p in 1..MAX_PRINCIPALS {
        let note = [Shape::Principal(p), Shape::Time(0)];
        let note = encrypted(walk, &note, Shape::LongTermKey(p));
        asked.push(spelt(walk, &note));
    }
    for exchange in exchanges {
        asked.extend([term(walk, 4, exchange.server.into(), 0), exchange.reply]);
    }
    asked.into_iter().map(|message| StepRecord { step: 10, message, ..STEP }).collect()
}
