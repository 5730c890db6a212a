//! What the intruder can derive: the paper's least set, found as written.
//!
//! The set of the paper is without end, since everything in it can be paired
//! and encrypted again. Looked for here are only its members among the terms
//! present. Nothing is lost by that: the terms present hold all parts of their
//! own, so a message that is no term was put together by the intruder, and
//! taking such a message apart again gives back what it was made of.

use std::collections::HashSet;

use crate::file::Settings;
use crate::terms::{Message, Shape, Terms};

/// Nonces and session keys from here on, up to 95, are the intruder's own.
pub const FIRST_OF_INTRUDER: u8 = 64;

/// The terms present that the intruder can derive.
pub fn derivable(settings: &Settings, terms: &Terms, wire: &HashSet<Message>) -> HashSet<Message> {
    let mut known = wire.clone();
    for message in terms.present() {
        if known_from_the_start(settings, message) {
            known.insert(message.clone());
        }
    }
    loop {
        let before = known.len();
        for message in terms.present() {
            close(&mut known, message);
        }
        if known.len() == before {
            return known;
        }
    }
}

/// "all parties and times, the bad parties' long-term keys, nonces and session
/// keys 64 to 95"
fn known_from_the_start(settings: &Settings, message: &Message) -> bool {
    match *message.shape() {
        Shape::Principal(_) | Shape::Time(_) => true,
        Shape::LongTermKey(principal) => settings.is_bad(principal),
        Shape::Nonce(i) | Shape::SessionKey(i) => i >= FIRST_OF_INTRUDER,
        Shape::Pair(..) | Shape::Encrypted(..) => false,
    }
}

/// The four rules of the set, used once each with this message as the whole.
fn close(known: &mut HashSet<Message>, whole: &Message) {
    match whole.shape() {
        Shape::Pair(left, right) => {
            if known.contains(whole) {
                known.insert(left.clone());
                known.insert(right.clone());
            }
            if known.contains(left) && known.contains(right) {
                known.insert(whole.clone());
            }
        }
        Shape::Encrypted(body, key) if known.contains(key) => {
            if known.contains(whole) {
                known.insert(body.clone());
            }
            if known.contains(body) {
                known.insert(whole.clone());
            }
        }
        _ => {}
    }
}
