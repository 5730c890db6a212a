//! The kinds of walk files, and how often each is made.

use reference::file::StepRecord;
use reference::realm::{Answer, MAX_ENTRIES};
use reference::rules::Rules;
use reference::terms::{Message, Shape};

use crate::forms::{self, Kind};
use crate::headers::any_header;
use crate::random::Random;
use crate::walk::Walk;
use crate::{actions, ahead, carried, damage, extremes, known, limits, purges};

/// A file of any kind. Files on full tables and of full length are long, so
/// they are made less often.
pub fn any_file(random: &mut Random) -> Vec<u8> {
    let kind = random.below(200);
    file_of(random, kind)
}

/// A damaged file, a bad header or random bytes, as often as among all files.
pub fn any_damaged_file(random: &mut Random) -> Vec<u8> {
    let kind = 164 + random.below(36);
    file_of(random, kind)
}

fn file_of(random: &mut Random, kind: usize) -> Vec<u8> {
    match kind {
        0..=41 => mixed(random).bytes,
        42..=49 => carried::carried_tickets(random).bytes,
        50..=54 => ahead::fast_clocks(random).bytes,
        55..=59 => purges::each_tick(random).bytes,
        60..=64 => known::known_parts(random).bytes,
        65..=84 => exchanges(random).bytes,
        85..=104 => ticks(random).bytes,
        105..=118 => collisions(random).bytes,
        119..=126 => locks(random).bytes,
        127..=131 => leaks(random).bytes,
        132..=137 => spoilt_fields(random).bytes,
        138..=144 => limits::full_tables(random).bytes,
        145..=150 => limits::last_places(random).bytes,
        151..=153 => limits::full_cache(random).bytes,
        154..=158 => limits::full_runs(random).bytes,
        159..=162 => extremes::deep_terms(random).bytes,
        163 if random.one_in(2) => extremes::longest(random),
        163..=176 => damaged(random),
        177..=184 => damage::random_records(random),
        185..=195 => damage::bad_header(random),
        _ => damage::random_bytes(random),
    }
}

/// Any records, aimed at what the tables hold.
pub fn mixed(random: &mut Random) -> Walk {
    let header = any_header(random);
    let mut walk = Walk::new(random.clone(), header);
    if walk.random.one_in(12) {
        set_clock(&mut walk, u32::MAX - 30);
    }
    for _ in 0..walk.random.between(3, 40) {
        act(&mut walk);
    }
    walk
}

/// One record, with the terms it needs; at times an earlier one again.
pub fn act(walk: &mut Walk) {
    if !walk.past.is_empty() && walk.random.one_in(16) {
        let past = walk.past[walk.random.below(walk.past.len())];
        return walk.offer(past);
    }
    let step = match walk.random.below(100) {
        0..=11 => 1,
        12..=20 => 2,
        21..=33 => 3,
        34..=46 => 4,
        47..=61 => 5,
        62..=70 => 6,
        71..=77 => 7,
        78..=80 => 8,
        81..=84 => 9,
        85..=90 => 10,
        _ => {
            let record = actions::any_term_record(walk);
            let _ = walk.put(record);
            return;
        }
    };
    let Some(record) = actions::aimed(walk, step) else { return };
    let record = if walk.random.one_in(10) { actions::spoilt(walk, record) } else { record };
    walk.offer(record);
}

pub fn set_clock(walk: &mut Walk, time: u32) {
    walk.offer(StepRecord { step: 7, time, ..StepRecord::default() });
}

/// Honest exchanges of several pairs, their steps interleaved.
pub fn exchanges(random: &mut Random) -> Walk {
    let header = any_header(random);
    let mut walk = Walk::new(random.clone(), header);
    let pairs: Vec<(u8, u8)> = (0..walk.random.between(1, 4)).map(|_| walk.two_clients()).collect();
    for _ in 0..walk.random.between(6, 40) {
        let (a, b) = walk.random.pick(&pairs);
        match walk.random.below(16) {
            0 | 1 => walk.offer(StepRecord { step: 1, a, b, ..StepRecord::default() }),
            2 | 3 => walk.offer(StepRecord { step: 2, a, b, ..StepRecord::default() }),
            4..=6 => deliver(&mut walk, 3),
            7..=9 => deliver(&mut walk, 4),
            10..=12 => deliver(&mut walk, 5),
            13..=14 => deliver(&mut walk, 6),
            _ => {
                let time = walk.realm.clock.saturating_add(walk.random.between(0, 3));
                set_clock(&mut walk, time);
            }
        }
    }
    walk
}

/// Delivers a message on the wire that fits, if there is one.
pub fn deliver(walk: &mut Walk, step: u8) {
    let run = if step == 3 { Some(0) } else { actions::run_for(walk, step) };
    let Some(run) = run else { return };
    let Some(message) = actions::sent_for(walk, step, run) else { return };
    let Some(message) = walk.spell(&message) else { return };
    walk.offer(StepRecord { step, run, message, ..StepRecord::default() });
}

/// One exchange, then replays, forgetting and late deliveries with the clock
/// set around the ends of the lives.
pub fn ticks(random: &mut Random) -> Walk {
    let mut header = any_header(random);
    header.ticket_life = random.pick(&[9, 10, 11, 12, 40, u32::MAX]);
    header.authenticator_life = random.pick(&[9, 10, 11, 12, u32::MAX]);
    let mut walk = Walk::new(random.clone(), header);
    if walk.random.one_in(3) {
        set_clock(&mut walk, u32::MAX - 12);
    }
    let (a, b) = walk.two_clients();
    for step in [1, 1, 3, 3, 4, 2, 2, 2, 5] {
        match step {
            1 | 2 => walk.offer(StepRecord { step, a, b, ..StepRecord::default() }),
            _ => deliver(&mut walk, step),
        }
    }
    for _ in 0..walk.random.between(4, 16) {
        match walk.random.below(8) {
            0..=2 => {
                let time = actions::next_clock(&mut walk);
                set_clock(&mut walk, time);
            }
            3 => walk.offer(StepRecord { step: 8, b, ..StepRecord::default() }),
            4 => deliver(&mut walk, 4),
            5 | 6 => deliver(&mut walk, 5),
            _ => deliver(&mut walk, 6),
        }
        if walk.random.one_in(4) {
            walk.offer(StepRecord { step: 2, a, b, ..StepRecord::default() });
        }
    }
    walk
}

/// Deliveries made by the intruder for bad principals, with b, K and Ta out of
/// few values, so that entries differ in one of them or in none.
pub fn collisions(random: &mut Random) -> Walk {
    let mut header = any_header(random);
    header.principals = header.principals.max(5);
    header.flags = 0b1100;
    header.ticket_life = header.ticket_life.max(10);
    let mut walk = Walk::new(random.clone(), header);
    if walk.random.one_in(3) {
        // A server's key comes in beside the intruder's own.
        walk.offer(StepRecord { step: 1, a: 1, b: 4, ..StepRecord::default() });
        deliver(&mut walk, 3);
        walk.offer(StepRecord { step: 9, run: 1, ..StepRecord::default() });
    }
    let many = if walk.random.one_in(2) { MAX_ENTRIES as u32 + 2 } else { 6 };
    for _ in 0..walk.random.between(4, 2 * many) {
        made_delivery(&mut walk, if many > 6 { 9 } else { 1 });
        if walk.random.one_in(8) {
            act(&mut walk);
        }
    }
    walk
}

/// Step 2 and step 5 with a ticket of the intruder's making; gives the latter. At
/// times its time is too far ahead.
pub fn made_delivery(walk: &mut Walk, highest_ta: u32) -> Option<StepRecord> {
    let (a, b) = (walk.random.pick(&[1, 4]), walk.random.pick(&[2, 3]));
    let key = walk.random.pick(&[64, 65]);
    let clock = walk.realm.clock;
    let ts = clock.saturating_sub(walk.random.between(0, 1));
    let highest = highest_ta.min(walk.realm.settings.authenticator_life.saturating_add(2));
    let ta = clock.saturating_sub(1).saturating_add(walk.random.between(0, highest));
    make_delivery(walk, Made { a, b, key, ts, ta })
}

/// What the intruder puts into a delivery.
pub struct Made {
    pub a: u8,
    pub b: u8,
    pub key: u8,
    pub ts: u32,
    pub ta: u32,
}

/// The same with values of our choice.
pub fn make_delivery(walk: &mut Walk, made: Made) -> Option<StepRecord> {
    let Made { a, b, key, ts, ta } = made;
    let key = Shape::SessionKey(key);
    let terms = &mut walk.realm.terms;
    let ticket = terms.list(&[key.clone(), Shape::Principal(a), Shape::Time(ts)]);
    let authenticator = terms.list(&[Shape::Principal(a), Shape::Time(ta)]);
    let (key, long_term_key) = (terms.make(key), terms.make(Shape::LongTermKey(b)));
    let ticket = terms.encrypt(ticket, long_term_key);
    let authenticator = terms.encrypt(authenticator, key);
    let message = terms.pair(ticket, authenticator);
    let opening = StepRecord { step: 2, a, b, ..StepRecord::default() };
    let Ok(Answer::Step { run: Some(run), .. }) = walk.step(opening) else { return None };
    let message = walk.spell(&message)?;
    let record = StepRecord { step: 5, run: run as u8, message, ..StepRecord::default() };
    walk.offer(record);
    Some(record)
}

/// The intruder makes authenticators for a ticket that he cannot open; then the
/// key leaks, and they are offered again. Under H4 the ticket comes by step 4.
pub fn leaks(random: &mut Random) -> Walk {
    let header = any_header(random);
    let mut walk = Walk::new(random.clone(), header);
    let (a, b) = walk.two_clients();
    walk.offer(StepRecord { step: 1, a, b, ..StepRecord::default() });
    deliver(&mut walk, 3);
    if forms::rules(&walk.realm) == Rules::Within {
        deliver(&mut walk, 4);
    }
    let for_b = |m: &&Message| forms::value(m, "K", Kind::LongTermKey) == Some(b.into());
    let ticket = walk.sent().iter().rfind(for_b).cloned();
    for _ in 0..walk.random.between(1, 3) {
        let Some(ticket) = ticket.clone() else { break };
        let time = Shape::Time(actions::some_time(&mut walk));
        let body = walk.realm.terms.list(&[Shape::Principal(a), time]);
        let key = walk.make(Shape::SessionKey(1));
        let authenticator = walk.realm.terms.encrypt(body, key);
        let delivery = walk.realm.terms.pair(ticket, authenticator);
        let Some(message) = walk.spell(&delivery) else { break };
        let run = walk.realm.runs.len() as u8;
        walk.offer(StepRecord { step: 2, a, b, ..StepRecord::default() });
        walk.offer(StepRecord { step: 5, run, message, ..StepRecord::default() });
    }
    let before = walk.past.clone();
    walk.offer(StepRecord { step: 9, run: 1, ..StepRecord::default() });
    for record in before.into_iter().filter(|record| record.step == 5) {
        walk.offer(record);
    }
    for _ in 0..walk.random.between(0, 12) {
        act(&mut walk);
    }
    walk
}

/// Exchanges, then records of every step with a field spoilt, and steps in runs
/// of every role and stage.
pub fn spoilt_fields(random: &mut Random) -> Walk {
    let mut walk = exchanges(random);
    for _ in 0..walk.random.between(5, 25) {
        let step = walk.random.between(1, 10) as u8;
        let Some(mut record) = actions::aimed(&mut walk, step) else { continue };
        if matches!(step, 4 | 5 | 6 | 9) && walk.random.one_in(2) {
            record.run = walk.random.below(walk.realm.runs.len()) as u8;
        } else {
            record = actions::spoilt(&mut walk, record);
        }
        walk.offer(record);
    }
    walk
}

/// Terms locked again and again, under keys that the intruder has, gets from a
/// bad principal's part or a leak, or lacks; and step 10 on them.
pub fn locks(random: &mut Random) -> Walk {
    let mut header = any_header(random);
    header.flags &= random.pick(&[0b0000, 0b0010, 0b1110, u32::MAX]);
    header.flags |= random.pick(&[0, 1 << (header.principals - 1)]);
    let mut walk = Walk::new(random.clone(), header);
    for step in [1, 3, 1, 3, 4, 2, 5, 6, 4] {
        match step {
            1 | 2 => walk.offer(StepRecord { step, a: 1, b: 2, ..StepRecord::default() }),
            _ => deliver(&mut walk, step),
        }
    }
    if walk.random.one_in(3) {
        walk.offer(StepRecord { step: 9, run: 1, ..StepRecord::default() });
    }
    for _ in 0..walk.random.between(3, 30) {
        let Some(body) = actions::any_term(&mut walk) else { return walk };
        let other = actions::any_term(&mut walk).unwrap_or(body.clone());
        let key = match walk.random.below(6) {
            0 => Shape::LongTermKey(walk.client()),
            1..=3 => Shape::SessionKey(walk.random.pick(&[1, 3])),
            _ => Shape::SessionKey(actions::some_key(&mut walk)),
        };
        let key = walk.make(key);
        let at_an_end = walk.random.pick(&[63, 64, 95]);
        let message = match walk.random.below(6) {
            0 => walk.realm.terms.pair(body, other),
            1 => body,
            2 => key,
            3 => {
                let last = walk.principals() - 1;
                let principal = walk.random.pick(&[last, last.min(16)]);
                let ends = [
                    Shape::Nonce(at_an_end),
                    Shape::SessionKey(at_an_end),
                    Shape::LongTermKey(0),
                    Shape::LongTermKey(principal),
                    Shape::LongTermKey(principal),
                ];
                let shape = walk.random.pick(&ends);
                walk.make(shape)
            }
            _ => walk.realm.terms.encrypt(body, key),
        };
        let Some(message) = walk.spell(&message) else { return walk };
        walk.offer(StepRecord { step: 10, message, ..StepRecord::default() });
    }
    walk
}

/// A short walk with its bytes damaged.
pub fn damaged(random: &mut Random) -> Vec<u8> {
    let walk = match random.below(4) {
        0 => mixed(random),
        1 => exchanges(random),
        2 => ticks(random),
        _ => collisions(random),
    };
    let mut random = walk.random.clone();
    damage::damage(&mut random, walk.bytes)
}
