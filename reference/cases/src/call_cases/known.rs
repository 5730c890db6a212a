//! Terms that are known before: by a call that added them, or by a step. Each step
//! is taken with any number of its terms present.

use super::rules::{H4, H5};
use super::{
    asks, exchanged, leaks, made_all, opened, opens, serves, takes, term, tick, Call, HEADER,
};
use crate::calls::World;
use crate::Script;

/// Calls after the first so many of the terms, for each number of them.
fn each(script: &mut Script<World>, name: &str, from: &World, terms: &[Call], call: Call) {
    for count in 0..=terms.len() {
        let world = made_all(from, &terms[..count]);
        script.case(&format!("{name}, {count} of its terms present"), &world, call);
    }
}

/// Times that are no step's, up to this many terms.
fn filled(world: &World, end: usize) -> World {
    let times: Vec<Call> = (world.tables.counts.terms..end).map(|i| term(1, 9, i as u32)).collect();
    made_all(world, &times)
}

/// Each kind, new and then old; and terms that steps added.
pub fn terms(script: &mut Script<World>) {
    let kinds = [
        term(0, 1, 0),
        term(1, 0, 1),
        term(2, 1, 0),
        term(3, 1, 0),
        term(4, 1, 0),
        term(5, 0, 1),
        term(6, 0, 4),
    ];
    script.walk("known terms", HEADER, &kinds);
    script.calls("known terms again", &kinds);
    let world = exchanged();
    let mut case = |text: &str, call: Call| script.case(text, &world, call);
    case("the nonce of step 1", term(2, 0, 0));
    case("the ticket of step 3", term(6, 13, 14));
    case("the authenticator of step 4", term(6, 12, 5));
    case("the confirmation of step 5", term(6, 6, 5));
    case("the time of step 7", term(1, 0, 5));
    case("a time of no step", term(1, 0, 6));
}

/// Step 1: a, b, the nonce and two pairs.
pub fn requests(script: &mut Script<World>) {
    let request = [term(0, 1, 0), term(0, 2, 0), term(2, 0, 0), term(5, 1, 2), term(5, 0, 3)];
    each(script, "step 1", &opened(HEADER), &request, opens(1, 1, 2));
    let twice = [opens(1, 1, 2), opens(1, 1, 2), opens(1, 2, 1), opens(2, 1, 2), opens(1, 1, 2)];
    script.walk("the same principals", HEADER, &twice);
}

/// What step 3 adds where it sends both parts: K and Ts stand in both.
fn both_parts() -> Vec<Call> {
    vec![
        term(4, 1, 0),
        term(1, 0, 0),
        term(5, 6, 2),
        term(5, 1, 7),
        term(5, 5, 8),
        term(3, 1, 0),
        term(6, 9, 10),
        term(5, 0, 6),
        term(5, 5, 12),
        term(3, 2, 0),
        term(6, 13, 14),
    ]
}

/// Step 3 under HD.
pub fn replies(script: &mut Script<World>) {
    let asked = made_all(&opened(HEADER), &[opens(1, 1, 2)]);
    each(script, "step 3", &asked, &both_parts(), serves(4));
    script.walk("the same request", HEADER, &[opens(1, 1, 2), serves(4), serves(4), serves(4)]);
}

/// Step 4 at a later clock: Ta, its pair with a, and the authenticator. Step 5: the
/// confirmation alone.
pub fn authenticators(script: &mut Script<World>) {
    let served = made_all(&opened(HEADER), &[opens(1, 1, 2), serves(4), tick(3)]);
    let parts = [term(1, 0, 3), term(5, 0, 16), term(6, 17, 5)];
    each(script, "step 4", &served, &parts, takes(4, 0, 11));
    let calls = [takes(4, 0, 11), opens(2, 1, 2), term(5, 15, 18)];
    let delivered = made_all(&served, &calls);
    each(script, "step 5", &delivered, &[term(6, 16, 5)], takes(5, 2, 19));
}

/// The same two steps under H5 and H4: the ticket behind the part for 1, and the
/// pair of the two; the ticket first, and in the part. Step 4 sends the ticket with
/// the authenticator.
pub fn carried_tickets(script: &mut Script<World>) {
    let mut beside = both_parts();
    beside.push(term(5, 11, 15));
    let within = vec![
        term(4, 1, 0),
        term(1, 0, 0),
        term(5, 0, 6),
        term(5, 5, 7),
        term(3, 2, 0),
        term(6, 8, 9),
        term(5, 2, 10),
        term(5, 6, 11),
        term(5, 1, 12),
        term(5, 5, 13),
        term(3, 1, 0),
        term(6, 14, 15),
    ];
    for (name, header, reply, ticket) in [("H5", H5, beside, 15), ("H4", H4, within, 10)] {
        let asked = made_all(&opened(header), &[opens(1, 1, 2)]);
        each(script, &format!("step 3 under {name}"), &asked, &reply, serves(4));
        let served = made_all(&asked, &[serves(4), tick(3)]);
        let parts = [term(1, 0, 3), term(5, 0, 17), term(6, 18, 5), term(5, ticket, 19)];
        each(script, &format!("step 4 under {name}"), &served, &parts, takes(4, 0, 16));
    }
}

/// As many places as terms that are not present, one fewer, and none at all.
pub fn full_table(script: &mut Script<World>) {
    let new = opened(HEADER);
    let pair = [term(0, 2, 0), term(2, 0, 0), term(5, 0, 1)];
    let some = made_all(&new, &pair);
    let whole = made_all(&some, &[term(0, 1, 0), term(5, 3, 2)]);
    let served = made_all(&new, &[opens(1, 1, 2), serves(4)]);
    let sent = made_all(&served, &[term(6, 12, 5)]);
    let delivered = made_all(&served, &[takes(4, 0, 11), opens(2, 1, 2), term(5, 15, 16)]);
    let answered = made_all(&delivered, &[term(6, 6, 5)]);
    let mut case = |text: &str, world: &World, end: usize, call: Call| {
        script.case(&format!("{end} terms, {text}"), &filled(world, end), call);
    };
    case("step 1 with none of its terms", &new, 507, opens(1, 1, 2));
    case("step 1 with none of its terms", &new, 508, opens(1, 1, 2));
    case("step 1 with three of its terms", &some, 510, opens(1, 1, 2));
    case("step 1 with three of its terms", &some, 511, opens(1, 1, 2));
    case("step 1 with all its terms", &whole, 512, opens(1, 1, 2));
    case("step 4 with two of its terms", &served, 511, takes(4, 0, 11));
    case("step 4 with two of its terms", &served, 512, takes(4, 0, 11));
    case("step 4 with all its terms", &sent, 512, takes(4, 0, 11));
    case("step 5 with none of its terms", &delivered, 511, takes(5, 2, 17));
    case("step 5 with none of its terms", &delivered, 512, takes(5, 2, 17));
    case("step 5 with all its terms", &answered, 512, takes(5, 2, 17));
    case("step 2", &whole, 512, opens(2, 1, 2));
    case("step 9", &served, 512, leaks(1));
    case("step 10", &served, 512, asks(4));
    case("the first term", &whole, 512, term(0, 2, 0));
    case("the last term", &whole, 512, term(1, 9, 511));
    case("another term", &whole, 512, term(1, 9, 512));
}
