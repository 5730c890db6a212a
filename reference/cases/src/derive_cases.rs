//! The cases of `derive_cases`: document 01's E, G, H and I, its faults that
//! concern the intruder, and every refusal.

use reference::tables::{TERM_PLACES, WIRE_WORDS};

use crate::calls::word;
use crate::derive::{Lent, Questions};
use crate::Script;

/// A term: kind, L and R.
type Term = (u32, u32, u32);

fn time(t: u32) -> Term {
    (1, 0, t)
}

fn principal(p: u32) -> Term {
    (0, p, 0)
}

fn nonce(i: u32) -> Term {
    (2, i, 0)
}

fn long_term_key(p: u32) -> Term {
    (3, p, 0)
}

fn session_key(i: u32) -> Term {
    (4, i, 0)
}

fn pair(left: u32, right: u32) -> Term {
    (5, left, right)
}

fn encrypted(body: u32, key: u32) -> Term {
    (6, body, key)
}

impl Script<Questions> {
    /// A question on these terms, with marks on these.
    fn ask(&mut self, text: &str, terms: &[Term], wire: &[usize], term: u32) {
        let lent = Lent { count: terms.len(), places: TERM_PLACES, words: WIRE_WORDS };
        self.ask_lent(text, terms, lent, wire, term);
    }

    fn ask_lent(&mut self, text: &str, terms: &[Term], lent: Lent, wire: &[usize], term: u32) {
        if self.program.lent != lent {
            self.numbers('C', &[lent.count, lent.places, lent.words].map(|n| n as u32));
        }
        for (place, (kind, left, right)) in terms.iter().enumerate() {
            if self.program.terms[place] != word(*kind, *left, *right) {
                self.numbers('T', &[place as u32, *kind, *left, *right]);
            }
        }
        let mut marks = [0u64; WIRE_WORDS];
        for mark in wire {
            marks[mark / 64] |= 1 << (mark % 64);
        }
        for (place, word) in marks.into_iter().enumerate() {
            if self.program.wire[place] != word {
                self.numbers('W', &[place as u32, (word >> 32) as u32, word as u32]);
            }
        }
        self.text(text);
        self.numbers('Q', &[term]);
    }
}

pub fn script() -> Script<Questions> {
    let mut script = Script::new(Questions::default());
    lettered_cases(&mut script);
    sent_on(&mut script);
    opened_in_turn(&mut script);
    own_numbers(&mut script);
    refused_sizes(&mut script);
    refused_terms(&mut script);
    refused_wires(&mut script);
    refused_numbers(&mut script);
    script
}

/// Document 01's cases E, G, H and I.
fn lettered_cases(script: &mut Script<Questions>) {
    let e = [time(0), principal(1), principal(2), pair(1, 2), long_term_key(1), long_term_key(2)];
    script.ask("E time 0", &e, &[], 0);
    script.ask("E pair of two principals", &e, &[], 3);
    script.ask("E key of a good principal", &e, &[], 4);
    script.ask("E key of a bad principal", &e, &[], 5);
    let g = [session_key(1), encrypted(0, 0)];
    script.ask("G key 1", &g, &[1], 0);
    script.ask("G {key 1}key 1", &g, &[1], 1);
    let h = [
        session_key(2),
        session_key(1),
        encrypted(0, 1),
        long_term_key(2),
        encrypted(1, 3),
        long_term_key(1),
        encrypted(1, 5),
    ];
    script.ask("H key 2", &h, &[2, 4], 0);
    script.ask("H key 2, key 1 under a good principal's key", &h, &[2, 6], 0);
    script.ask("H key 2, key 1 not sent", &h, &[2], 0);
    script.ask("H key 2, {key 2}key 1 not sent", &h, &[4], 0);
    let i = [nonce(0), session_key(1), encrypted(0, 1)];
    script.ask("I {nonce 0}key 1", &i, &[2], 2);
    script.ask("I nonce 0", &i, &[2], 0);
    script.ask("I {nonce 0}key 1, not sent", &i, &[], 2);
}

/// The fault "testing a lock by its key alone": an encryption that was seen is
/// sent on unopened, alone, in a pair, and under another key.
fn sent_on(script: &mut Script<Questions>) {
    let terms = [
        time(7),
        long_term_key(1),
        encrypted(0, 1),
        pair(2, 0),
        session_key(64),
        encrypted(3, 4),
        encrypted(2, 1),
    ];
    script.ask("seen {time 7}key of 1", &terms, &[2], 2);
    script.ask("seen, in a pair", &terms, &[2], 3);
    script.ask("seen, in a pair under key 64", &terms, &[2], 5);
    script.ask("seen, under the key of 1 once more", &terms, &[2], 6);
    script.ask("not seen", &terms, &[], 2);
    script.ask("not seen, in a pair under key 64", &terms, &[], 5);
}

/// The fault "one pass over the wire": an opened encryption holds the key to an
/// earlier one, or to a later one.
fn opened_in_turn(script: &mut Script<Questions>) {
    let terms = [
        nonce(5),
        session_key(1),
        encrypted(0, 1),
        long_term_key(2),
        encrypted(1, 3),
        nonce(6),
        pair(5, 0),
        encrypted(6, 1),
    ];
    script.ask("opened, key to an earlier one: nonce 5", &terms, &[4, 2], 0);
    script.ask("opened, key to a later one: nonce 6", &terms, &[4, 7], 5);
    script.ask("opened, no other sent: nonce 6", &terms, &[4], 5);
}

/// The intruder's own nonces and session keys start at 64.
fn own_numbers(script: &mut Script<Questions>) {
    let terms =
        [nonce(63), nonce(64), session_key(63), session_key(64), encrypted(1, 3), encrypted(1, 2)];
    script.ask("own: nonce 63", &terms, &[], 0);
    script.ask("own: nonce 64", &terms, &[], 1);
    script.ask("own: key 63", &terms, &[], 2);
    script.ask("own: key 64", &terms, &[], 3);
    script.ask("own: {nonce 64}key 64", &terms, &[], 4);
    script.ask("own: {nonce 64}key 63", &terms, &[], 5);
}

/// 10 for a table of another size, and for a count over the limit.
fn refused_sizes(script: &mut Script<Questions>) {
    let terms = [principal(0)];
    let one = Lent { count: 1, places: TERM_PLACES, words: WIRE_WORDS };
    script.ask_lent("511 places", &terms, Lent { places: 511, ..one }, &[], 0);
    script.ask("512 places", &terms, &[], 0);
    script.ask_lent("513 places", &terms, Lent { places: 513, ..one }, &[], 0);
    script.ask_lent("count 513", &terms, Lent { count: 513, ..one }, &[], 0);
}

/// 10 for a term that breaks rule 4, 5 or 6, and for one that repeats. It stands
/// behind principal 0 and session key 1.
fn refused_terms(script: &mut Script<Questions>) {
    let mut third = |text: &str, kind: u32, left: u32, right: u32| {
        script.ask(text, &[principal(0), session_key(1), (kind, left, right)], &[], 0);
    };
    third("principal 2 of 3", 0, 2, 0);
    third("kind 7", 7, 0, 0);
    third("principal 1, R 1", 0, 1, 1);
    third("nonce 1, R 1", 2, 1, 1);
    third("long-term key of 1, R 1", 3, 1, 1);
    third("session key 2, R 1", 4, 2, 1);
    third("principal 3 of 3", 0, 3, 0);
    third("nonce 96", 2, 96, 0);
    third("long-term key of 3 of 3", 3, 3, 0);
    third("session key 96", 4, 96, 0);
    third("pair of 2 and 0 as term 2", 5, 2, 0);
    third("pair of 0 and 2 as term 2", 5, 0, 2);
    third("term 2 under a key as term 2", 6, 2, 1);
    third("term 0 under term 2 as term 2", 6, 0, 2);
    third("term 1 under a principal", 6, 1, 0);
    third("session key 1 twice", 4, 1, 0);
}

/// 10 for a wire of another size, and for a mark past the last term; before 6.
fn refused_wires(script: &mut Script<Questions>) {
    let terms = [principal(0)];
    let one = Lent { count: 1, places: TERM_PLACES, words: WIRE_WORDS };
    script.ask_lent("wire of 7 words", &terms, Lent { words: 7, ..one }, &[], 0);
    script.ask_lent("wire of 9 words", &terms, Lent { words: 9, ..one }, &[], 0);
    script.ask("mark on the last term", &terms, &[0], 0);
    script.ask("mark past the last term", &terms, &[1], 0);
    script.ask("mark on the last place", &terms, &[511], 0);
    script.ask("mark past the last term, term not present", &terms, &[1], 1);
}

/// 6 for a term that is not present.
fn refused_numbers(script: &mut Script<Questions>) {
    let terms = [principal(0)];
    script.ask("term 1 of 1", &terms, &[], 1);
    script.ask("term 512 of 1", &terms, &[], 512);
    script.ask("term 0 of none", &[], &[], 0);
}
