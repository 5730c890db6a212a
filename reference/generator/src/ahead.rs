//! Walks in which authenticators come with times from the future, as from a
//! principal whose clock is fast: below clock + La, at it and above it.

use reference::file::StepRecord;

use crate::headers::with_bad_responders;
use crate::purges::deliver_again;
use crate::random::Random;
use crate::scenes::{make_delivery, set_clock, Made};
use crate::walk::Walk;

/// Deliveries of the intruder's, often at clock 0 or near the highest time. The
/// clock goes on, and they come again, to runs of their own and to others.
pub fn fast_clocks(random: &mut Random) -> Walk {
    let mut header = with_bad_responders(random, 1);
    header.ticket_life = random.pick(&[1, 2, 4, 12, 100]);
    header.authenticator_life = random.pick(&[1, 2, 3, 5, 10, 30, u32::MAX]);
    let mut walk = Walk::new(random.clone(), header);
    if walk.random.one_in(3) {
        let before = walk.random.between(0, header.authenticator_life.min(20) + 2);
        set_clock(&mut walk, u32::MAX - before);
    }
    for _ in 0..walk.random.between(2, 5) {
        for _ in 0..walk.random.between(1, 4) {
            deliver(&mut walk);
        }
        for _ in 0..walk.random.below(3) {
            deliver_again(&mut walk);
            to_another_run(&mut walk);
        }
        let ticks = walk.random.pick(&[0, 1, 1, 2, header.authenticator_life]);
        let time = walk.realm.clock.saturating_add(ticks);
        set_clock(&mut walk, time);
    }
    walk
}

/// A delivery with a key of the intruder's, its time around a sum that matters.
fn deliver(walk: &mut Walk) {
    let (clock, settings) = (walk.realm.clock, walk.realm.settings);
    let (ls, la) = (settings.ticket_life, settings.authenticator_life);
    let b = walk.random.pick(&[2, 2, 3]);
    let key = 64 + (walk.realm.runs.len() % 32) as u8;
    let life = walk.random.pick(&[la, la, la, ls, 0]);
    let nudged = clock.saturating_add(life).saturating_add(walk.random.pick(&[0, 1, 1, 2]));
    let ta = walk.random.pick(&[nudged.saturating_sub(1), nudged.saturating_sub(1), u32::MAX]);
    let ts = clock.saturating_sub(walk.random.pick(&[0, 0, 0, ls]));
    make_delivery(walk, Made { a: 1, b, key, ts, ta });
}

/// The message of one delivery to the run of another.
fn to_another_run(walk: &mut Walk) {
    let deliveries: Vec<StepRecord> =
        walk.past.iter().filter(|record| record.step == 5).copied().collect();
    let (run, message) = (walk.random.pick(&deliveries).run, walk.random.pick(&deliveries).message);
    walk.offer(StepRecord { step: 5, run, message, ..StepRecord::default() });
}
