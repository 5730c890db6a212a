//! What a listener gains by a record: secrets that he learns, encryptions that he
//! opens, and messages of the table that he can make from here on. Terms that he
//! could make as soon as they were there, such as principals, times and pairs of
//! them, are no gain.

use engine::{is_marked, Call, Set, Tables, Term, WIRE_WORDS};

use super::rows::Noted;
use crate::vocabulary::{ENCRYPTED, FIRST_OF_INTRUDER, LONG_TERM_KEY, NONCE, PAIR, SESSION_KEY};
use crate::walk::{Taken, Walk};

#[derive(Clone, Debug, Default, PartialEq, Eq)]
pub struct Listener {
    /// How many terms are on the wire.
    pub wire: u32,
    /// Of a term that was added or was there: whether he can derive it.
    pub derives: Option<bool>,
    pub learns: Vec<Noted>,
    pub opens: Vec<Noted>,
    pub makes: Vec<Noted>,
}

impl Listener {
    pub fn gains(&self) -> bool {
        !(self.learns.is_empty() && self.opens.is_empty() && self.makes.is_empty())
    }
}

/// What is known at a point: how many terms there are, which he can derive, and
/// which of those on the wire he has opened.
#[derive(Clone, Copy, Default)]
struct Point {
    terms: usize,
    wire: Set,
    known: Set,
    opened: Set,
}

/// For each call, what a listener has and gains.
pub fn listeners(walk: &Walk) -> Vec<Listener> {
    let mut before = Point::default();
    let mut listeners = Vec::new();
    for taken in &walk.taken {
        let mut now = Point { terms: taken.terms, wire: taken.wire, known: taken.known, ..before };
        let changed = now.known != before.known || now.wire != before.wire;
        if changed {
            now.opened = opened(&walk.tables, &now);
        }
        let mut listener = if changed { gains(walk, &before, &now) } else { Listener::default() };
        listener.wire = now.wire.iter().map(|word| word.count_ones()).sum();
        listener.derives = derives(taken);
        listeners.push(listener);
        before = now;
    }
    listeners
}

fn derives(taken: &Taken) -> Option<bool> {
    let term = match (taken.call, taken.answer) {
        (Call::Term { .. }, engine::Answer::New(term) | engine::Answer::Old(term)) => term,
        _ => return None,
    };
    Some(is_marked(&taken.known, term))
}

fn mark(set: &mut Set, term: u16) {
    set[usize::from(term) / 64] |= 1 << (term % 64);
}

fn members(set: &Set, count: usize) -> impl Iterator<Item = u16> + '_ {
    (0..count as u16).filter(|&term| is_marked(set, term))
}

/// The encryptions that come up when all that is on the wire is taken apart, and
/// whose key he has. Parts are earlier terms, so one pass from the last is enough.
fn opened(tables: &Tables, point: &Point) -> Set {
    let mut seen = point.wire;
    let mut opened = [0; WIRE_WORDS];
    for number in (0..point.terms as u16).rev() {
        match tables.term(number) {
            _ if !is_marked(&seen, number) => {}
            Some(Term { kind: PAIR, l, r }) => {
                mark(&mut seen, l);
                mark(&mut seen, r);
            }
            Some(Term { kind: ENCRYPTED, l, r }) if is_marked(&point.known, r) => {
                mark(&mut opened, number);
                mark(&mut seen, l);
            }
            _ => {}
        }
    }
    opened
}

fn gains(walk: &Walk, before: &Point, now: &Point) -> Listener {
    let tables = &walk.tables;
    let noted = |terms: Vec<u16>| terms.into_iter().map(|term| Noted::of(walk, term)).collect();
    let fresh: Vec<u16> =
        members(&now.known, now.terms).filter(|&term| !is_marked(&before.known, term)).collect();
    let learns = fresh.iter().copied().filter(|&term| is_secret(walk, tables.term(term)));
    let opens = members(&now.opened, now.terms).filter(|&term| !is_marked(&before.opened, term));
    let parts = parts(tables, now.terms);
    let is_made = |term: &u16| {
        usize::from(*term) < before.terms
            && !is_marked(&now.wire, *term)
            && !is_marked(&parts, *term)
            && tables.term(*term).is_some_and(|term| term.kind >= PAIR)
    };
    Listener {
        learns: noted(learns.collect()),
        opens: noted(opens.collect()),
        makes: noted(fresh.iter().copied().filter(is_made).collect()),
        ..Listener::default()
    }
}

/// A nonce or key that is not the intruder's from the start.
fn is_secret(walk: &Walk, term: Option<Term>) -> bool {
    match term {
        Some(Term { kind: NONCE | SESSION_KEY, l, .. }) => l < FIRST_OF_INTRUDER,
        Some(Term { kind: LONG_TERM_KEY, l, .. }) => !walk.is_bad(l as u8),
        _ => false,
    }
}

/// The terms that are a part of another.
fn parts(tables: &Tables, count: usize) -> Set {
    let mut parts = [0; WIRE_WORDS];
    let terms = (0..count as u16).filter_map(|number| tables.term(number));
    for Term { l, r, .. } in terms.filter(|term| term.kind >= PAIR) {
        mark(&mut parts, l);
        mark(&mut parts, r);
    }
    parts
}
