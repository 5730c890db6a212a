//! Terms as deep as the table, and files as long as a file may be.

use reference::file::{StepRecord, MAX_FILE_BYTES, STEP_BYTES};
use reference::terms::{Message, Shape};

use crate::actions;
use crate::headers::any_header;
use crate::limits::full_tables;
use crate::random::Random;
use crate::scenes::deliver;
use crate::walk::Walk;

/// Terms made of the last term over and over, up to the whole table: pairs with
/// itself, with an early term, locks under keys known and unknown.
pub fn deep_terms(random: &mut Random) -> Walk {
    let header = any_header(random);
    let mut walk = Walk::new(random.clone(), header);
    for step in [1, 3, 2] {
        match step {
            1 | 2 => walk.offer(StepRecord { step, a: 1, b: 2, ..StepRecord::default() }),
            _ => deliver(&mut walk, step),
        }
    }
    let own_key = walk.make(Shape::SessionKey(64));
    let some_key = Shape::SessionKey(actions::some_key(&mut walk));
    let some_key = walk.make(some_key);
    let with_unknown = walk.random.one_in(2);
    let early = walk.random.between(0, 8) as u16;
    let mut deep = walk.make(Shape::Principal(1));
    for key in [&own_key, &some_key, &deep.clone()] {
        let _ = walk.spell(key);
    }
    for _ in 0..walk.random.pick(&[40, 150, 300, 500]) {
        deep = deeper(&mut walk, deep, early, &own_key, with_unknown.then_some(&some_key));
        if walk.spell(&deep).is_none() {
            break;
        }
    }
    for _ in 0..8 {
        let count = walk.realm.terms.count();
        let message = (count - 1 - walk.random.below(count.min(40))) as u16;
        let step = walk.random.pick(&[10, 10, 10, 3, 4, 5]);
        let run = if step == 5 { 2 } else { 0 };
        walk.offer(StepRecord { step, run, message, ..StepRecord::default() });
    }
    walk
}

fn deeper(
    walk: &mut Walk,
    deep: Message,
    early: u16,
    own: &Message,
    other: Option<&Message>,
) -> Message {
    let early = walk.realm.terms.at(early).cloned();
    let choice = walk.random.below(16);
    let terms = &mut walk.realm.terms;
    match (choice, early, other) {
        (0, Some(early), _) => terms.pair(deep, early),
        (1, Some(early), _) => terms.pair(early, deep),
        (2 | 3, _, _) => terms.encrypt(deep, own.clone()),
        (4, _, Some(key)) => terms.encrypt(deep, key.clone()),
        _ => terms.pair(deep.clone(), deep),
    }
}

/// A walk filled up with cheap records to a length around the longest that is
/// read.
pub fn longest(random: &mut Random) -> Vec<u8> {
    let mut walk = full_tables(random);
    let length =
        walk.random.pick(&[MAX_FILE_BYTES - 1, MAX_FILE_BYTES, MAX_FILE_BYTES, MAX_FILE_BYTES + 1]);
    // 7 and 12 have no common factor, so some number of TM records makes the
    // rest a whole number of ST records.
    while !(length - walk.bytes.len()).is_multiple_of(STEP_BYTES) {
        let _ = walk.term(0, 1, 0);
    }
    while walk.bytes.len() < length {
        let record = match walk.random.below(8) {
            0 => StepRecord { step: 8, b: walk.client(), ..StepRecord::default() },
            1 if walk.random.one_in(8) => StepRecord {
                step: 10,
                message: walk.random.below(512) as u16,
                ..StepRecord::default()
            },
            _ => StepRecord { step: 7, time: walk.realm.clock, ..StepRecord::default() },
        };
        walk.offer(record);
    }
    walk.bytes
}
