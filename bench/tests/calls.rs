//! The tables of the public calls, and what the calls do to them.

use bench::calls::{chain, make, query, sweeps, Order, CALLS, EACH, LINKS, PURGE, WHOLE};
use bench::exchange::STEP;
use lent::{is_marked, Answer};
use reference::file::{Record, StepRecord};

/// Ok, with no run and no term added.
const OK: Answer = Answer::Ok { run: None, added: 0 };

#[test]
fn calls_leave_full_tables_as_they_are() {
    for terms in [64, 128, 256, 512] {
        for number in 0..CALLS - 1 {
            let mut call = make(number, terms);
            let realm = call.both.tables.realm;
            assert_eq!((realm.terms, realm.runs, realm.entries), (terms, 64, 16));
            let before = call.both.tables.clone();
            let answer = call.both.put(call.record);
            assert_eq!(answer, OK, "{}", call.name);
            assert_eq!(call.both.put(call.check()), OK, "{}", call.name);
            EACH.into_iter().for_each(|which| call.take(which));
            assert_eq!(call.both.tables, before, "{}", call.name);
        }
    }
}

/// The whole set is the reference's, and the last key's secret is in it.
#[test]
fn the_whole_set_is_asked_for() {
    let call = make(WHOLE, 512);
    assert!(call.whole);
    let known = call.both.tables.known().unwrap();
    let derivable = call.both.realm.derivable();
    let Record::Step(StepRecord { message: nonce, .. }) = call.record else { panic!() };
    assert!(is_marked(&known, nonce));
    for (number, message) in (0..).zip(call.both.realm.terms.present()) {
        assert_eq!(is_marked(&known, number), derivable.contains(message), "term {number}");
    }
}

#[test]
fn sweeps_are_counted() {
    let of = |terms| [0, 1, 2, PURGE].map(|number| make(number, terms).sweeps);
    assert_eq!(of(512), [1, 2, LINKS + 2, 0]);
    assert_eq!(of(64), [1, 2, 32, 0]);
}

/// Without its first link nothing of a chain is opened.
#[test]
fn a_chain_hangs_on_its_first_link() {
    for order in [Order::Best, Order::Worst] {
        let (mut both, nonce) = chain(512, order);
        let first = match order {
            Order::Best => 2 * LINKS + 2,
            Order::Worst => LINKS + 2,
        };
        let message = both.realm.terms.at(first as u16).unwrap().clone();
        let (_, key) = message.encrypted().unwrap();
        assert_eq!(key.session_key(), Some(64));
        assert!(both.realm.wire.remove(&message));
        both.tables.wire[first / 64] ^= 1 << (first % 64);
        assert_eq!(sweeps(&both.realm), 1);
        assert_eq!(both.put(query(nonce)), Answer::Refused(15));
    }
}

/// All entries are of the principal whose purge it is. One tick before the end of
/// their lives they stay, and at the end they go.
#[test]
fn a_purge_finds_only_entries_that_stay() {
    let mut call = make(PURGE, 512);
    let cache = call.both.tables.cache.clone();
    assert!(cache.iter().all(|entry| entry.b == 2));
    for (clock, left) in [(0, 16), (8, 16), (9, 0)] {
        let ticks = Record::Step(StepRecord { step: 7, time: clock, ..STEP });
        assert_eq!(call.both.put(ticks), OK);
        assert_eq!(call.both.put(call.record), OK);
        assert_eq!(call.both.tables.realm.entries, left);
        assert_eq!(call.both.tables.cache == cache, left == 16);
    }
}

#[test]
fn the_delivery_is_refused_on_full_tables() {
    let mut call = make(CALLS - 1, 512);
    let realm = call.both.tables.realm;
    assert_eq!((realm.terms, realm.runs, realm.entries), (512, 64, 16));
    assert_eq!(call.sweeps, 3);
    let before = call.both.tables.clone();
    assert_eq!(call.both.put(call.record), Answer::Refused(18));
    assert_eq!(call.both.put(call.check()), OK);
    assert_eq!(call.both.tables, before);
}
