//! Deliveries on full tables: 64 runs, 512 terms, 16 entries.
//!
//! The initiators are bad, so each server's key comes out of the reply to one of
//! them and then opens the authenticator and the confirmation, which stand above
//! it. Sweeps from the last term to the first meet these before the key: one
//! sweep for the keys, one for what they open, one that adds nothing. No file
//! takes more, since keys are on the wire under long-term keys only, and those
//! are in no body.

use generator::walk::Walk;
use reference::file::{Header, Record, StepRecord};
use reference::terms::Shape;

use crate::exchange::{encrypted, opens, spelt, term, tick, walk, Exchange, STEP};
use crate::walks::{fill_terms, GOOD};

const FIRST_GOOD: u8 = 8;

/// The walk that fills the tables, and deliveries that leave them as they are:
/// 18, 19, 17, 15 and 16, and step 10 on a term under all keys that came out.
pub fn filled() -> (Walk, Vec<Record>) {
    let header = Header { flags: 0x00fe, ticket_life: 12, ..GOOD };
    let mut walk = walk(header);
    let late = late_reply(&mut walk);
    let exchanges: Vec<Exchange> = (0..20).map(|number| exchange(&mut walk, number)).collect();
    let (old, fresh) = (exchanges[15].clone(), exchanges[19].clone());
    let second = opens(&mut walk, StepRecord { step: 2, a: old.a, b: old.b, ..STEP });
    opens(&mut walk, StepRecord { step: 2, a: old.a, b: old.b, ..STEP });
    let expired = fresh.delivery_at(&mut walk, 0);
    let hidden = hidden_delivery(&mut walk, &fresh);
    let nested = nested(&mut walk, &exchanges);
    tick(&mut walk);
    tick(&mut walk);
    fill_terms(&mut walk);
    let run = fresh.responder;
    let records = vec![
        Record::Step(StepRecord { step: 5, run: second, message: old.delivery, ..STEP }),
        Record::Step(fresh.delivers()),
        Record::Step(StepRecord { step: 5, run, message: expired, ..STEP }),
        Record::Step(StepRecord { step: 5, run, message: hidden, ..STEP }),
        Record::Step(late),
        Record::Step(StepRecord { step: 10, message: nested, ..STEP }),
    ];
    (walk, records)
}

/// An exchange of a bad initiator and a good responder; the first 16 are
/// accepted, and the others wait. The clock moves after every second one.
fn exchange(walk: &mut Walk, number: u8) -> Exchange {
    let exchange = Exchange::prepare(walk, 1 + number % 7, FIRST_GOOD + number % 8);
    if number < 16 {
        exchange.complete(walk);
    }
    if number % 2 == 1 {
        tick(walk);
    }
    exchange
}

/// An initiator run that waits for the reply, which will be too old.
fn late_reply(walk: &mut Walk) -> StepRecord {
    let mut exchange = Exchange::between(1, FIRST_GOOD);
    exchange.asks(walk);
    exchange.is_served(walk);
    exchange.takes()
}

/// A delivery to the exchange's responder under a key that the intruder has not.
fn hidden_delivery(walk: &mut Walk, exchange: &Exchange) -> u16 {
    let (key, a) = (Shape::SessionKey(63), Shape::Principal(exchange.a));
    let clock = Shape::Time(walk.realm.clock);
    let ticket = [key.clone(), a.clone(), clock.clone()];
    let ticket = encrypted(walk, &ticket, Shape::LongTermKey(exchange.b));
    let authenticator = encrypted(walk, &[a, clock], key);
    let delivery = walk.realm.terms.pair(ticket, authenticator);
    spelt(walk, &delivery)
}

/// Nonce 64 encrypted under the keys of all exchanges, one over the other.
fn nested(walk: &mut Walk, exchanges: &[Exchange]) -> u16 {
    let mut nested = term(walk, 2, 64, 0);
    for exchange in exchanges {
        let key = term(walk, 4, exchange.server.into(), 0);
        nested = term(walk, 6, nested, key);
    }
    nested
}
