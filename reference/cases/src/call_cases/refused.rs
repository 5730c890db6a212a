//! The other refusals of a call, on the tables after an exchange.

use reference::file::Header;

use super::{
    asks, exchanged, forgets, leaks, made, opened, opens, prepared, serves, step, takes, term,
    tick, Call, WIDE,
};
use crate::calls::World;
use crate::Script;

/// 4 and 5.
pub fn unknown_and_unused(script: &mut Script<World>) {
    let world = exchanged();
    let mut case = |text: &str, call: Call| script.case(text, &world, call);
    case("kind 7", term(7, 0, 0));
    case("kind 7 with L and R out of range", term(7, 600, 600));
    case("step 0", step(0, 0, 0, 0, 0, 0));
    case("step 11", step(11, 9, 9, 9, 999, 9));
    case("principal with R", term(0, 1, 1));
    case("principal out of range, with R", term(0, 3, 1));
    case("step 1 with a run", step(1, 1, 1, 2, 0, 0));
    case("step 3 with a", step(3, 0, 1, 0, 4, 0));
    case("step 4 with b", step(4, 0, 0, 1, 11, 0));
    case("step 7 with m", step(7, 0, 0, 0, 1, 5));
    case("step 10 with t", step(10, 0, 0, 0, 600, 1));
}

/// 6.
pub fn out_of_range(script: &mut Script<World>) {
    let world = exchanged();
    let mut case = |text: &str, call: Call| script.case(text, &world, call);
    case("principal 3 of 3", term(0, 3, 0));
    case("nonce 96", term(2, 96, 0));
    case("long-term key of 3 of 3", term(3, 3, 0));
    case("session key 96", term(4, 96, 0));
    case("pair with a term not present", term(5, 0, 19));
    case("term under a pair", term(6, 0, 3));
    case("step 1 with a 0", opens(1, 0, 2));
    case("step 1 with b 3 of 3", opens(1, 1, 3));
    case("step 2 with b 0", opens(2, 1, 0));
    case("step 2 with b as a", opens(2, 1, 1));
    case("step 8 with b 3 of 3", forgets(3));
    case("step 9 with a run not present", leaks(4));
    case("step 10 with a term not present", asks(19));
}

/// The last two of 32 principals, and 6 where the last is not there.
pub fn principals(script: &mut Script<World>) {
    script.case("step 1 of 30 and 31 of 32", &opened(WIDE), opens(1, 30, 31));
    let narrower = opened(Header { principals: 31, ..WIDE });
    script.case("step 1 of 30 and 31 of 31", &narrower, opens(1, 30, 31));
}

/// 11: the role or the stage. 12: the clock.
pub fn role_and_clock(script: &mut Script<World>) {
    let world = exchanged();
    let mut case = |text: &str, call: Call| script.case(text, &world, call);
    case("step 4 of an initiator after 4", takes(4, 0, 11));
    case("step 4 of a responder", takes(4, 3, 11));
    case("step 5 of a responder that is done", takes(5, 2, 17));
    case("step 5 of an initiator", takes(5, 0, 17));
    case("step 6 of a server run", takes(6, 1, 18));
    case("step 9 of an initiator", leaks(0));
    case("step 7 to the clock", tick(5));
    case("step 7 below the clock", tick(4));
}

/// 14: the form. 15: what the intruder cannot derive; the delivery that is
/// prepared is term 22, its authenticator 21.
pub fn messages(script: &mut Script<World>) {
    let world = exchanged();
    let mut case = |text: &str, world: &World, call: Call| script.case(text, world, call);
    case("step 3 with a principal", &world, serves(0));
    case("step 5 with the ticket alone", &world, takes(5, 3, 15));
    case("step 6 with the authenticator", &world, takes(6, 0, 16));
    case("step 6 with the confirmation", &world, takes(6, 0, 18));
    case("step 10 with K", &world, asks(5));
    case("step 10 with the ticket", &world, asks(15));
    let prepared = prepared(&world);
    case("step 5 with an authenticator made up", &prepared, takes(5, 3, 22));
    let leaked = made(&prepared, leaks(1));
    case("step 5 with the same, K leaked", &leaked, takes(5, 3, 22));
    case("step 9 again", &leaked, leaks(1));
}

/// 16, 17, 18: Ts and Ta are 5, the lives 100 and 10.
pub fn lives(script: &mut Script<World>) {
    let world = exchanged();
    let mut case = |text: &str, clock: u32, call: Call| {
        let text = format!("clock {clock}, {text}");
        script.case(&text, &made(&world, tick(clock)), call);
    };
    case("step 5 with the delivery again", 5, takes(5, 3, 17));
    case("step 5 with the delivery again", 14, takes(5, 3, 17));
    case("step 8", 14, forgets(2));
    case("step 5 with the delivery again", 15, takes(5, 3, 17));
    case("step 8", 15, forgets(2));
    case("step 8 of another", 15, forgets(1));
    case("step 6", 104, takes(6, 0, 18));
    case("step 6", 105, takes(6, 0, 18));
    case("step 5 with the delivery again", 105, takes(5, 3, 17));
}
