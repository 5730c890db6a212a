//! Walks in which principals purge at every tick. The ends of lives are few, so
//! that entries go and stay in every pattern.

use reference::file::StepRecord;
use reference::realm::{Answer, Run, MAX_ENTRIES};

use crate::headers::with_bad_responders;
use crate::random::Random;
use crate::scenes::{make_delivery, set_clock, Made};
use crate::walk::Walk;

/// Deliveries fill the cache, in part or whole. Then ticks: entries are purged,
/// deliveries are sent again, and new ones come.
pub fn each_tick(random: &mut Random) -> Walk {
    let mut header = with_bad_responders(random, 100);
    header.authenticator_life = random.between(2, 6);
    let mut walk = Walk::new(random.clone(), header);
    let responders: &[u8] = walk.random.pick(&[&[2][..], &[2, 3], &[2, 2, 2, 3]]);
    for _ in 0..walk.random.pick(&[2, 3, 5, 8, MAX_ENTRIES, MAX_ENTRIES]) {
        deliver(&mut walk, responders);
    }
    for _ in 0..walk.random.between(1, 4) {
        go_on(&mut walk);
        purge(&mut walk, responders);
        for _ in 0..walk.random.below(3) {
            deliver_again(&mut walk);
        }
        for _ in 0..walk.random.below(3) {
            deliver(&mut walk, responders);
        }
    }
    walk
}

/// A delivery of the intruder's, with a key of his for each run.
fn deliver(walk: &mut Walk, responders: &[u8]) {
    let b = walk.random.pick(responders);
    let key = 64 + (walk.realm.runs.len() % 32) as u8;
    let ts = walk.realm.clock;
    let ta = ts + walk.random.between(0, 2);
    make_delivery(walk, Made { a: 1, b, key, ts, ta });
}

/// The clock goes to the end of an entry's life, often the last, or a tick before
/// one, or on by one.
fn go_on(walk: &mut Walk) {
    let (clock, life) = (walk.realm.clock, walk.realm.settings.authenticator_life);
    let ends = walk.realm.cache.iter().map(|entry| entry.authenticator_time + life);
    let last = ends.clone().max().unwrap_or(clock);
    let mut times: Vec<u32> = ends.flat_map(|end| [end - 1, end, last]).collect();
    times.push(clock + 1);
    let time = walk.random.pick(&times);
    set_clock(walk, time.max(clock));
}

/// Every principal purges, or a responder alone.
fn purge(walk: &mut Walk, responders: &[u8]) {
    let mut whose: Vec<u8> = (0..walk.principals()).collect();
    if walk.random.one_in(2) {
        whose = vec![walk.random.pick(responders)];
    }
    for b in whose {
        walk.offer(StepRecord { step: 8, b, ..StepRecord::default() });
    }
}

/// An earlier delivery, to a new run of the same two.
pub fn deliver_again(walk: &mut Walk) {
    let mut past = walk.past.clone();
    past.retain(|record| record.step == 5);
    if past.is_empty() {
        return;
    }
    let record = walk.random.pick(&past);
    let Run { a, b, .. } = walk.realm.runs[usize::from(record.run)];
    let opening = StepRecord { step: 2, a, b, ..StepRecord::default() };
    let Ok(Answer::Step { run: Some(run), .. }) = walk.step(opening) else { return };
    walk.offer(StepRecord { run: run as u8, ..record });
}
