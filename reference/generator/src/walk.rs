//! A walk being written: its bytes, and the realm as it stands after them.

use std::collections::HashSet;

use reference::file::{Header, Record, StepRecord, TermRecord};
use reference::realm::{Answer, Realm};
use reference::refusal::Refusal;
use reference::terms::{Message, Shape};
use reference::writing::{header_bytes, record_bytes};

use crate::random::Random;

pub struct Walk {
    pub bytes: Vec<u8>,
    pub realm: Realm,
    pub random: Random,
    /// The ST records so far, accepted and refused, to be offered again.
    pub past: Vec<StepRecord>,
}

impl Walk {
    pub fn new(random: Random, header: Header) -> Walk {
        let realm = Realm::new(header.settings());
        Walk { bytes: header_bytes(&header), realm, random, past: Vec::new() }
    }

    pub fn put(&mut self, record: Record) -> Result<Answer, Refusal> {
        self.bytes.extend(record_bytes(&record));
        self.realm.apply(&record)
    }

    pub fn step(&mut self, record: StepRecord) -> Result<Answer, Refusal> {
        self.past.push(record);
        self.put(Record::Step(record))
    }

    /// A step whose answer does not matter here.
    pub fn offer(&mut self, record: StepRecord) {
        let _ = self.step(record);
    }

    pub fn term(&mut self, kind: u8, left: u16, right: u16) -> Result<Answer, Refusal> {
        self.put(Record::Term(TermRecord { kind, left, right }))
    }

    /// Writes the TM records that make a term of the message, as far as they
    /// fit, and gives its number.
    pub fn spell(&mut self, message: &Message) -> Option<u16> {
        for part in self.realm.terms.missing(std::slice::from_ref(message)) {
            let record = self.term_record(&part);
            self.put(Record::Term(record)).ok()?;
        }
        self.realm.terms.number(message)
    }

    /// The TM record of a message whose parts are terms.
    pub fn term_record(&self, message: &Message) -> TermRecord {
        let number = |part: &Message| self.realm.terms.number(part).expect("a part is a term");
        let (kind, left, right) = match message.shape() {
            Shape::Principal(p) => (0, u16::from(*p), 0),
            Shape::Time(t) => (1, (t >> 16) as u16, *t as u16),
            Shape::Nonce(i) => (2, u16::from(*i), 0),
            Shape::LongTermKey(p) => (3, u16::from(*p), 0),
            Shape::SessionKey(i) => (4, u16::from(*i), 0),
            Shape::Pair(first, second) => (5, number(first), number(second)),
            Shape::Encrypted(body, key) => (6, number(body), number(key)),
        };
        TermRecord { kind, left, right }
    }

    pub fn make(&mut self, shape: Shape) -> Message {
        self.realm.terms.make(shape)
    }

    pub fn principals(&self) -> u8 {
        self.realm.settings.principals
    }

    /// A principal other than the server, often the last.
    pub fn client(&mut self) -> u8 {
        let last = self.principals() - 1;
        let any = self.random.between(1, last.into()) as u8;
        if self.random.one_in(6) {
            last
        } else {
            any
        }
    }

    /// Two principals that a run can be opened for.
    pub fn two_clients(&mut self) -> (u8, u8) {
        let a = self.client();
        let mut b = self.client();
        while b == a {
            b = self.client();
        }
        (a, b)
    }

    /// The terms on the wire, by rising number.
    pub fn wire(&self) -> Vec<Message> {
        self.those_in(&self.realm.wire)
    }

    /// The same, with the halves of the pairs among them.
    pub fn sent(&self) -> Vec<Message> {
        let mut sent = self.realm.wire.clone();
        for (left, right) in self.realm.wire.iter().filter_map(Message::pair) {
            sent.extend([left.clone(), right.clone()]);
        }
        self.those_in(&sent)
    }

    fn those_in(&self, set: &HashSet<Message>) -> Vec<Message> {
        let terms = self.realm.terms.present().iter();
        terms.filter(|message| set.contains(*message)).cloned().collect()
    }
}
