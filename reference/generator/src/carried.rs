//! Walks under H5 and H4: tickets go through the hands of the initiators, and other
//! terms in their place. Some are under HD and HW, with the forms of the others.

use reference::file::{Header, StepRecord};
use reference::marks::FORMATS;
use reference::realm::Role;
use reference::rules::Rules;
use reference::terms::{Message, Shape};

use crate::actions::{self, some_x};
use crate::forms::{self, Kind};
use crate::headers::any_header;
use crate::random::Random;
use crate::scenes::{deliver, set_clock};
use crate::walk::Walk;

/// A header of a mark whose tickets are carried, at times of another. Often 1 is bad,
/// so that the intruder makes its parts.
fn header(random: &mut Random) -> Header {
    let mut header = any_header(random);
    let carried = FORMATS.iter().filter(|format| format.rules != Rules::Apart);
    let marks: Vec<u16> = carried.map(|format| format.mark).collect();
    if !random.one_in(6) {
        header.mark = random.pick(&marks);
    }
    header.flags |= random.pick(&[0, 0b10]);
    header.ticket_life = header.ticket_life.max(5);
    header.authenticator_life = header.authenticator_life.max(5);
    header
}

/// Exchanges of few principals. Step 4 takes the server's reply, one with another X,
/// or the form of another rule set; step 5 takes what step 4 sent, or its halves
/// joined with others.
pub fn carried_tickets(random: &mut Random) -> Walk {
    let header = header(random);
    let mut walk = Walk::new(random.clone(), header);
    let (a, b) = walk.two_clients();
    let pairs = [(1, 2), (1, 2), (a, b), (b, a)];
    for (a, b) in pairs {
        walk.offer(StepRecord { step: 1, a, b, ..StepRecord::default() });
        deliver(&mut walk, 3);
    }
    for _ in 0..walk.random.between(6, 24) {
        let (a, b) = walk.random.pick(&pairs);
        match walk.random.below(16) {
            0 => walk.offer(StepRecord { step: 1, a, b, ..StepRecord::default() }),
            1 | 2 => walk.offer(StepRecord { step: 2, a, b, ..StepRecord::default() }),
            3 => deliver(&mut walk, 3),
            4 => deliver(&mut walk, 4),
            5..=8 => take_with_x(&mut walk),
            9 | 10 => deliver(&mut walk, 5),
            11 | 12 => deliver_what_came(&mut walk),
            13 => deliver(&mut walk, 6),
            14 => walk.offer(StepRecord { step: 9, run: 1, ..StepRecord::default() }),
            _ => {
                let time = walk.realm.clock.saturating_add(walk.random.between(0, 3));
                set_clock(&mut walk, time);
            }
        }
    }
    walk
}

/// Step 4 with some X, with a reply of any set's form, or with a part put wrong.
fn take_with_x(walk: &mut Walk) {
    let Some(run) = actions::run_for(walk, 4) else { return };
    let Some(message) = reply_with_x(walk, run) else { return };
    let Some(message) = walk.spell(&message) else { return };
    walk.offer(StepRecord { step: 4, run, message, ..StepRecord::default() });
}

fn reply_with_x(walk: &mut Walk, run: u8) -> Option<Message> {
    let (a, b) = walk.realm.runs.get(usize::from(run)).map(|run| (run.a, run.b))?;
    let own = forms::rules(&walk.realm);
    if own == Rules::Apart || walk.random.one_in(3) {
        let (other, wrong) = (walk.random.pick(&Rules::ALL), walk.random.one_in(2));
        let rules = if wrong { own } else { other };
        return Some(actions::filled(walk, &forms::reply(rules, a, b, run), wrong));
    }
    let x = match walk.random.below(4) {
        0 => None,
        1 => Some(walk.make(Shape::LongTermKey(b))),
        _ => Some(some_x(walk)),
    };
    match own {
        Rules::Within => within(walk, run, x),
        _ => beside(walk, run, x),
    }
}

/// A part that came, beside this X or itself.
fn beside(walk: &mut Walk, run: u8, x: Option<Message>) -> Option<Message> {
    let form = forms::form(&walk.realm, 4, run, None)?;
    let mut replies: Vec<Message> = walk.sent();
    replies.retain(|message| forms::fits(&form, message));
    if replies.is_empty() {
        return None;
    }
    let reply = walk.random.pick(&replies);
    let part = reply.pair()?.0.clone();
    Some(walk.realm.terms.pair(part.clone(), x.unwrap_or(part)))
}

/// What the intruder makes for the run, with a key that a server made for the same
/// two, or any: this X in the last place, or a part that came.
fn within(walk: &mut Walk, run: u8, x: Option<Message>) -> Option<Message> {
    let (a, b) = walk.realm.runs.get(usize::from(run)).map(|run| (run.a, run.b))?;
    let x = x.or_else(|| {
        let parts = walk.wire();
        parts.iter().rfind(|m| forms::value(m, "K", Kind::LongTermKey).is_some()).cloned()
    })?;
    let runs = walk.realm.runs.iter().enumerate();
    let same_two = runs.filter(|(_, run)| (run.role, run.a, run.b) == (Role::Server, a, b));
    let mut keys: Vec<u8> = same_two.map(|(number, _)| number as u8).collect();
    keys.push(actions::some_key(walk));
    let body = [
        Shape::SessionKey(walk.random.pick(&keys)),
        Shape::Principal(b),
        Shape::Time(walk.realm.clock),
        Shape::Nonce(run),
        x.shape().clone(),
    ];
    let (body, key) = (walk.realm.terms.list(&body), walk.make(Shape::LongTermKey(a)));
    Some(walk.realm.terms.encrypt(body, key))
}

/// Step 5 with a pair that some step 4 sent, whatever its X is.
fn deliver_what_came(walk: &mut Walk) {
    let Some(run) = actions::run_for(walk, 5) else { return };
    let mut pairs = walk.wire();
    pairs.retain(|message| forms::value(message, "RK", Kind::SessionKey).is_some());
    if pairs.is_empty() {
        return;
    }
    let message = walk.random.pick(&pairs);
    let Some(message) = walk.spell(&message) else { return };
    walk.offer(StepRecord { step: 5, run, message, ..StepRecord::default() });
}
