//! Messages as values without numbers, and where a message stands in the engine's
//! table. Those of the exchange are in `forms`. Numbers always come from the table.

use std::collections::BTreeSet;

use engine::{Tables, Term};

use crate::vocabulary::{ENCRYPTED, LONG_TERM_KEY, NONCE, PAIR, PRINCIPAL, SESSION_KEY, TIME};

#[derive(Clone, Debug, PartialEq, Eq, PartialOrd, Ord)]
pub enum Message {
    Principal(u8),
    Time(u32),
    Nonce(u16),
    LongTermKey(u8),
    SessionKey(u16),
    Pair(Box<Message>, Box<Message>),
    Encrypted(Box<Message>, Box<Message>),
    /// A term that is present, by its number.
    Present(u16),
}

use Message::{Encrypted, LongTermKey, Nonce, Pair, Present, Principal, SessionKey, Time};

/// [p, q, r]: the pair of p and the pair of q and r. Of one message, itself.
pub fn list(mut messages: Vec<Message>) -> Message {
    let last = messages.pop().expect("a list has a message");
    messages.into_iter().rev().fold(last, |rest, first| Pair(first.into(), rest.into()))
}

/// {p, q}k
pub fn encrypted(body: Vec<Message>, key: Message) -> Message {
    Encrypted(list(body).into(), key.into())
}

impl Message {
    /// A message of no parts as a term.
    pub fn atom(&self) -> Option<Term> {
        let (kind, l, r) = match *self {
            Principal(p) => (PRINCIPAL, p.into(), 0),
            Time(t) => (TIME, (t >> 16) as u16, t as u16),
            Nonce(n) => (NONCE, n, 0),
            LongTermKey(p) => (LONG_TERM_KEY, p.into(), 0),
            SessionKey(k) => (SESSION_KEY, k, 0),
            Pair(..) | Encrypted(..) | Present(_) => return None,
        };
        Some(Term { kind, l, r })
    }

    /// The number of the message in the table, if it is there.
    pub fn find(&self, tables: &Tables) -> Option<u16> {
        match self {
            Present(number) => Some(*number),
            Pair(l, r) => tables.find(Term { kind: PAIR, l: l.find(tables)?, r: r.find(tables)? }),
            Encrypted(b, k) => {
                tables.find(Term { kind: ENCRYPTED, l: b.find(tables)?, r: k.find(tables)? })
            }
            atom => tables.find(atom.atom()?),
        }
    }

    fn missing<'a>(&'a self, tables: &Tables, parts: &mut BTreeSet<&'a Message>) {
        if let Pair(l, r) | Encrypted(l, r) = self {
            l.missing(tables, parts);
            r.missing(tables, parts);
        }
        if self.find(tables).is_none() {
            parts.insert(self);
        }
    }
}

/// How many terms the messages need that are not in the table.
pub fn missing(messages: &[Message], tables: &Tables) -> usize {
    let mut parts = BTreeSet::new();
    messages.iter().for_each(|message| message.missing(tables, &mut parts));
    parts.len()
}
