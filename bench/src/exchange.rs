//! Honest exchanges, record by record.

use generator::forms::rules;
use generator::random::Random;
use generator::walk::Walk;
use reference::file::{Header, StepRecord};
use reference::realm::Answer;
use reference::rules::Rules;
use reference::terms::{Message, Shape};

use Shape::{LongTermKey, Nonce, Principal, SessionKey, Time};

pub const STEP: StepRecord = StepRecord { step: 0, run: 0, a: 0, b: 0, message: 0, time: 0 };

/// The runs and the terms of one exchange, as far as it has come; the others are 0.
/// The reply is what step 4 takes by the realm's rule set.
#[derive(Clone, Debug, Default)]
pub struct Exchange {
    pub a: u8,
    pub b: u8,
    pub initiator: u8,
    pub server: u8,
    pub responder: u8,
    pub reply: u16,
    pub ticket: u16,
    pub authenticator: u16,
    pub delivery: u16,
}

impl Exchange {
    /// Steps 1, 3, 4 and 2, and the term that step 5 takes.
    pub fn prepare(walk: &mut Walk, a: u8, b: u8) -> Exchange {
        let mut exchange = Exchange::between(a, b);
        exchange.asks(walk);
        exchange.is_served(walk);
        exchange.takes_key(walk);
        exchange.meets(walk);
        exchange
    }

    /// One that has not begun.
    pub fn between(a: u8, b: u8) -> Exchange {
        Exchange { a, b, ..Exchange::default() }
    }

    /// Step 1.
    pub fn asks(&mut self, walk: &mut Walk) {
        self.initiator = opens(walk, StepRecord { step: 1, a: self.a, b: self.b, ..STEP });
    }

    /// Step 3.
    pub fn is_served(&mut self, walk: &mut Walk) {
        let (a, b, nonce) = (Principal(self.a), Principal(self.b), Nonce(self.initiator));
        let request = walk.realm.terms.list(&[a.clone(), b.clone(), nonce.clone()]);
        let message = number(walk, &request);
        self.server = opens(walk, StepRecord { step: 3, message, ..STEP });
        let (key, clock) = (SessionKey(self.server), Time(walk.realm.clock));
        let mut part = vec![key.clone(), b, clock.clone(), nonce];
        let ticket = encrypted(walk, &[key, a, clock], LongTermKey(self.b));
        let rules = rules(&walk.realm);
        if rules == Rules::Within {
            part.push(ticket.shape().clone());
        }
        let mut reply = encrypted(walk, &part, LongTermKey(self.a));
        self.ticket = number(walk, &ticket);
        if rules == Rules::Beside {
            reply = walk.realm.terms.pair(reply, ticket);
        }
        self.reply = number(walk, &reply);
    }

    pub fn takes(&self) -> StepRecord {
        StepRecord { step: 4, run: self.initiator, message: self.reply, ..STEP }
    }

    /// Step 4.
    pub fn takes_key(&mut self, walk: &mut Walk) {
        accepted(walk, self.takes());
        let body = [Principal(self.a), Time(walk.realm.clock)];
        let authenticator = encrypted(walk, &body, SessionKey(self.server));
        self.authenticator = number(walk, &authenticator);
    }

    /// Step 2, and the term that step 5 takes, where step 4 has not sent it.
    pub fn meets(&mut self, walk: &mut Walk) {
        self.responder = opens(walk, StepRecord { step: 2, a: self.a, b: self.b, ..STEP });
        let [ticket, authenticator] = [self.ticket, self.authenticator]
            .map(|number| walk.realm.terms.at(number).expect("a step sent it").clone());
        let delivery = walk.realm.terms.pair(ticket, authenticator);
        self.delivery = spelt(walk, &delivery);
    }

    /// The ticket with an authenticator of this time, which nobody need have sent.
    pub fn delivery_at(&self, walk: &mut Walk, time: u32) -> u16 {
        let body = [Principal(self.a), Time(time)];
        let authenticator = encrypted(walk, &body, SessionKey(self.server));
        let authenticator = spelt(walk, &authenticator);
        term(walk, 5, self.ticket, authenticator)
    }

    pub fn delivers(&self) -> StepRecord {
        StepRecord { step: 5, run: self.responder, message: self.delivery, ..STEP }
    }

    /// Step 6 with the confirmation of this time, which nobody need have sent.
    pub fn confirms_at(&self, walk: &mut Walk, time: u32) -> StepRecord {
        let confirmation = encrypted(walk, &[Time(time)], SessionKey(self.server));
        let message = spelt(walk, &confirmation);
        StepRecord { step: 6, run: self.initiator, message, ..STEP }
    }

    /// Steps 5 and 6, at the clock of step 4; gives the latter.
    pub fn complete(&self, walk: &mut Walk) -> StepRecord {
        accepted(walk, self.delivers());
        let confirms = self.confirms_at(walk, walk.realm.clock);
        accepted(walk, confirms);
        confirms
    }
}

pub fn walk(header: Header) -> Walk {
    Walk::new(Random::new(0, 0), header)
}

pub fn accepted(walk: &mut Walk, record: StepRecord) {
    assert!(walk.step(record).is_ok(), "refused: {record:?}");
}

/// A step that opens a run.
pub fn opens(walk: &mut Walk, record: StepRecord) -> u8 {
    accepted(walk, record);
    walk.realm.runs.len() as u8 - 1
}

pub fn tick(walk: &mut Walk) {
    let time = walk.realm.clock + 1;
    accepted(walk, StepRecord { step: 7, time, ..STEP });
}

/// The number of a term that is there or fits.
pub fn term(walk: &mut Walk, kind: u8, left: u16, right: u16) -> u16 {
    match walk.term(kind, left, right) {
        Ok(Answer::Old(number) | Answer::New(number)) => number,
        _ => panic!("refused: term {kind} {left} {right}"),
    }
}

pub fn spelt(walk: &mut Walk, message: &Message) -> u16 {
    walk.spell(message).expect("the message fits")
}

pub fn encrypted(walk: &mut Walk, body: &[Shape], key: Shape) -> Message {
    let terms = &mut walk.realm.terms;
    let (body, key) = (terms.list(body), terms.make(key));
    terms.encrypt(body, key)
}

/// The number of a message that a step sent, or of a part of one.
fn number(walk: &Walk, message: &Message) -> u16 {
    walk.realm.terms.number(message).expect("the message was sent")
}
