//! Walks at the limits of the tables: 512 terms, 64 runs, 16 entries.

use reference::file::{Record, StepRecord, TermRecord};
use reference::realm::{MAX_ENTRIES, MAX_RUNS};
use reference::terms::MAX_TERMS;

use crate::actions;
use crate::conditions::{facts, sends};
use crate::headers::{any_header, with_bad_responders};
use crate::known::add_some;
use crate::random::Random;
use crate::scenes::{act, deliver, made_delivery, set_clock};
use crate::walk::Walk;

/// Adds terms until only so many places are left.
fn fill_terms(walk: &mut Walk, left: usize) {
    let mut next = walk.random.between(1_000, 60_000);
    while walk.realm.terms.count() + left < MAX_TERMS {
        let count = walk.realm.terms.count();
        if count > 1 && walk.random.one_in(6) {
            let (l, r) = (walk.random.below(count) as u16, walk.random.below(count) as u16);
            let _ = walk.term(5, l, r);
        } else {
            next += 1;
            let _ = walk.term(1, (next >> 16) as u16, next as u16);
        }
    }
}

fn fill_runs(walk: &mut Walk, left: usize) {
    while walk.realm.runs.len() + left < MAX_RUNS {
        let record = actions::opening(walk, 2);
        walk.offer(record);
    }
}

/// Records for later: deliveries to the runs that are open, their messages
/// spelt out while there is room. At times what they send is spelt out too.
fn prepare(walk: &mut Walk, spell_sends: bool) -> Vec<StepRecord> {
    let mut shots = Vec::new();
    for step in [1, 2, 3, 3, 4, 4, 4, 5, 5, 5, 5, 6, 6, 9, 10, 10] {
        let Some(record) = actions::aimed(walk, step) else { continue };
        let facts = facts(&mut walk.realm, &Record::Step(record));
        if let (true, Some(read)) = (spell_sends, facts.read) {
            for message in sends(&mut walk.realm, step, read) {
                let _ = walk.spell(&message);
            }
        }
        shots.push(record);
    }
    shots
}

/// Exchanges, then any of the three tables filled up, then records prepared
/// before and others, with the clock moving.
pub fn full_tables(random: &mut Random) -> Walk {
    let header = with_bad_responders(random, 5);
    let mut walk = Walk::new(random.clone(), header);
    let (fill_all_runs, fill_cache, fill_all_terms) =
        (walk.random.one_in(3), walk.random.one_in(2), walk.random.percent(70));
    for _ in 0..walk.random.between(10, 40) {
        let step = walk.random.pick(&[1, 2, 3, 3, 4, 4, 5, 5, 6]);
        if step <= 2 {
            let record = actions::opening(&mut walk, step);
            walk.offer(record);
        } else {
            deliver(&mut walk, step);
        }
    }
    if fill_cache {
        let mut tries = 0;
        while walk.realm.cache.len() < MAX_ENTRIES && tries < 40 {
            made_delivery(&mut walk, 40);
            tries += 1;
        }
    }
    let spell_sends = walk.random.one_in(3);
    let shots = prepare(&mut walk, spell_sends);
    if fill_all_runs {
        fill_runs(&mut walk, 0);
    }
    if fill_all_terms {
        let left = walk.random.pick(&[0, 0, 1, 1, 1, 2, 5, 11]);
        fill_terms(&mut walk, left);
        for _ in 0..walk.random.between(0, 5) {
            offer_terms(&mut walk);
        }
    }
    fire(&mut walk, &shots);
    walk
}

fn fire(walk: &mut Walk, shots: &[StepRecord]) {
    for _ in 0..walk.random.between(6, 24) {
        if walk.random.one_in(8) {
            let time = actions::next_clock(walk);
            set_clock(walk, time);
        } else if walk.random.one_in(5) {
            offer_terms(walk);
        } else if walk.random.one_in(3) || shots.is_empty() {
            act(walk);
        } else {
            let record = walk.random.pick(shots);
            let record =
                if walk.random.one_in(20) { actions::spoilt(walk, record) } else { record };
            walk.offer(record);
        }
    }
}

/// A term that is present, one that is not, one with a field out of range.
fn offer_terms(walk: &mut Walk) {
    if let Some(record) = actions::term_again(walk) {
        let _ = walk.put(record);
    }
    let mut record = TermRecord { kind: walk.random.below(7) as u8, left: 1, right: 0 };
    let below = match record.kind {
        0 | 3 => usize::from(walk.principals()),
        5 | 6 => walk.realm.terms.count(),
        _ => 96,
    };
    record.left = walk.random.below(below.max(1)) as u16;
    record.left += walk.random.pick(&[0, 0, 0, 1, 62, 511]);
    record.right += walk.random.pick(&[0, 0, 0, 1, 3]);
    let _ = walk.put(Record::Term(record));
}

/// A step that is about to be taken with exactly as many places as it needs,
/// with one fewer, or with none needed and none left. At times some of its terms
/// are present.
pub fn last_places(random: &mut Random) -> Walk {
    let mut header = any_header(random);
    header.ticket_life = header.ticket_life.max(5);
    header.authenticator_life = header.authenticator_life.max(5);
    let mut walk = Walk::new(random.clone(), header);
    let (a, b) = walk.two_clients();
    let last = walk.random.pick(&[1, 3, 4, 4, 5, 5, 5]);
    for step in [1, 3, 4, 2, 5] {
        let record = match step {
            1 | 2 => Some(StepRecord { step, a, b, ..StepRecord::default() }),
            _ => on_its_way(&mut walk, step),
        };
        let Some(record) = record else { return walk };
        if step == last {
            if walk.random.one_in(3) {
                add_some(&mut walk, record);
            }
            prepare_last(&mut walk, record);
            pass_time(&mut walk);
        }
        walk.offer(record);
        if step == last {
            break;
        }
    }
    for _ in 0..4 {
        act(&mut walk);
    }
    walk
}

/// At times the clock goes to the end of a life, or past it.
fn pass_time(walk: &mut Walk) {
    if walk.random.one_in(3) {
        let settings = walk.realm.settings;
        let life = walk.random.pick(&[settings.ticket_life, settings.authenticator_life]);
        let time = life.saturating_add(walk.random.between(0, 1)) - walk.random.between(0, 1);
        set_clock(walk, time);
    }
}

/// The step with a message on the wire that fits, if there is one.
pub fn on_its_way(walk: &mut Walk, step: u8) -> Option<StepRecord> {
    let run = if step == 3 { 0 } else { actions::run_for(walk, step)? };
    let message = actions::sent_for(walk, step, run)?;
    Some(StepRecord { step, run, message: walk.spell(&message)?, ..StepRecord::default() })
}

fn prepare_last(walk: &mut Walk, record: StepRecord) {
    let known = facts(&mut walk.realm, &Record::Step(record));
    let (Some(read), Some(needed)) = (known.read, known.new_terms) else { return };
    match walk.random.below(4) {
        0 => fill_terms(walk, needed),
        1 | 2 if needed > 0 => fill_terms(walk, needed - 1),
        _ => {
            for message in sends(&mut walk.realm, record.step, read) {
                let _ = walk.spell(&message);
            }
            fill_terms(walk, 0);
        }
    }
}

/// A full cache turns a delivery away; entries are forgotten; it comes again.
pub fn full_cache(random: &mut Random) -> Walk {
    let mut header = with_bad_responders(random, 100);
    header.authenticator_life = random.between(4, 40);
    let mut walk = Walk::new(random.clone(), header);
    let highest_ta = walk.random.between(10, 50);
    let mut turned_away = Vec::new();
    for _ in 0..40 {
        let full = walk.realm.cache.len() == MAX_ENTRIES;
        let delivery = made_delivery(&mut walk, highest_ta);
        turned_away.extend(delivery.filter(|_| full));
        if turned_away.len() == 3 {
            break;
        }
    }
    for _ in 0..walk.random.between(1, 4) {
        let entries: Vec<_> = walk.realm.cache.clone();
        let Some(entry) = entries.iter().min_by_key(|entry| entry.authenticator_time) else {
            break;
        };
        let end = entry.authenticator_time.saturating_add(header.authenticator_life);
        let time = end.saturating_sub(walk.random.pick(&[0, 0, 1])).max(walk.realm.clock);
        set_clock(&mut walk, time);
        let b = walk.random.pick(&[entry.responder, entry.responder, 2, 3, 0]);
        walk.offer(StepRecord { step: 8, b, ..StepRecord::default() });
        for record in &turned_away {
            walk.offer(*record);
        }
    }
    walk
}

/// All 64 runs, the last ones opened by each of the three steps.
pub fn full_runs(random: &mut Random) -> Walk {
    let header = any_header(random);
    let mut walk = Walk::new(random.clone(), header);
    for _ in 0..walk.random.between(0, 20) {
        act(&mut walk);
    }
    let first = actions::opening(&mut walk, 1);
    walk.offer(first);
    let left = walk.random.pick(&[0, 1, 1, 1, 2, 3]);
    fill_runs(&mut walk, left);
    for _ in 0..walk.random.between(4, 14) {
        let step = walk.random.pick(&[1, 2, 3, 3, 3, 4, 5, 9, 10]);
        if let Some(record) = actions::aimed(&mut walk, step) {
            let spoil = walk.random.one_in(3);
            let record = if spoil { actions::spoilt(&mut walk, record) } else { record };
            walk.offer(record);
        }
    }
    walk
}
