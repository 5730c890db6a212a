//! Walks in which part of what a step sends is known before: by TM records, or by
//! earlier steps. So a step adds any number of terms, from none to all.

use reference::file::{Record, StepRecord};
use reference::terms::Message;

use crate::actions;
use crate::conditions::{facts, sends};
use crate::headers::any_header;
use crate::limits::on_its_way;
use crate::random::Random;
use crate::scenes::set_clock;
use crate::walk::Walk;

/// Exchanges of two principals. Before a step some of its terms are added, after
/// it some terms are named again.
pub fn known_parts(random: &mut Random) -> Walk {
    let mut header = any_header(random);
    header.ticket_life = header.ticket_life.max(5);
    header.authenticator_life = header.authenticator_life.max(5);
    let mut walk = Walk::new(random.clone(), header);
    let (a, b) = walk.two_clients();
    for step in [1, 3, 4, 2, 5, 6, 1, 3, 4] {
        let record = match step {
            1 | 2 => Some(StepRecord { step, a, b, ..StepRecord::default() }),
            _ => on_its_way(&mut walk, step),
        };
        let Some(record) = record else { continue };
        add_some(&mut walk, record);
        walk.offer(record);
        for _ in 0..walk.random.below(3) {
            if let Some(record) = actions::term_again(&mut walk) {
                let _ = walk.put(record);
            }
        }
        if walk.random.one_in(4) {
            let time = walk.realm.clock.saturating_add(1);
            set_clock(&mut walk, time);
        }
    }
    walk
}

/// Adds terms that the step would add, any number of them.
pub fn add_some(walk: &mut Walk, record: StepRecord) {
    let known = facts(&mut walk.realm, &Record::Step(record));
    let Some(read) = known.read else { return };
    let sends = sends(&mut walk.realm, record.step, read);
    let missing = walk.realm.terms.missing(&sends);
    let left_out = walk.random.below(missing.len() + 1);
    for part in without(walk, missing, left_out) {
        let _ = walk.spell(&part);
    }
}

/// Leaves out so many parts, each time one that no other of them is made of.
fn without(walk: &mut Walk, mut parts: Vec<Message>, count: usize) -> Vec<Message> {
    for _ in 0..count {
        let is_outer = |at: &usize| !parts.iter().any(|other| is_made_of(other, &parts[*at]));
        let outer: Vec<usize> = (0..parts.len()).filter(is_outer).collect();
        parts.remove(walk.random.pick(&outer));
    }
    parts
}

fn is_made_of(message: &Message, part: &Message) -> bool {
    let parts = message.pair().or(message.encrypted());
    parts.is_some_and(|(first, second)| first == part || second == part)
}
