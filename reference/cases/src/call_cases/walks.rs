//! Walks from a new realm, call by call.

use super::{asks, forgets, leaks, opens, serves, takes, term, tick, HEADER, LONG};
use crate::calls::World;
use crate::Script;

/// Document 01's case F, and A to D.
pub fn lettered(script: &mut Script<World>) {
    let whole = [
        opens(1, 1, 2),
        serves(4),
        takes(4, 0, 11),
        opens(2, 1, 2),
        term(5, 15, 16),
        takes(5, 2, 17),
        takes(6, 0, 18),
        opens(2, 1, 2),
        takes(5, 3, 17),
    ];
    script.walk("F", HEADER, &whole);
    let ticket = [
        opens(1, 1, 2),
        serves(4),
        opens(1, 1, 2),
        serves(18),
        tick(99),
        takes(4, 0, 11),
        tick(100),
        takes(4, 2, 23),
    ];
    script.walk("A", HEADER, &ticket);
    let authenticator = [
        opens(1, 1, 2),
        serves(4),
        takes(4, 0, 11),
        term(5, 15, 16),
        opens(2, 1, 2),
        opens(2, 1, 2),
        tick(9),
        takes(5, 2, 17),
        tick(10),
        takes(5, 3, 17),
    ];
    script.walk("B", HEADER, &authenticator);
    let entry = [
        opens(1, 1, 2),
        serves(4),
        takes(4, 0, 11),
        opens(2, 1, 2),
        term(5, 15, 16),
        takes(5, 2, 17),
        opens(2, 1, 2),
        tick(9),
        forgets(2),
        takes(5, 3, 17),
        tick(10),
        forgets(2),
    ];
    script.walk("C", HEADER, &entry);
    script.walk("D", HEADER, &[tick(5), tick(5), tick(4), tick(u32::MAX)]);
}

/// Lives that end above the last clock, and at it.
pub fn long_lives(script: &mut Script<World>) {
    let above = [
        tick(1),
        opens(1, 1, 2),
        serves(4),
        opens(1, 1, 2),
        serves(18),
        takes(4, 0, 11),
        term(5, 15, 26),
        opens(2, 1, 2),
        opens(2, 1, 2),
        tick(u32::MAX),
        takes(4, 2, 23),
        takes(5, 4, 27),
        forgets(2),
        takes(5, 5, 27),
        takes(6, 0, 31),
        tick(u32::MAX - 1),
    ];
    script.walk("lives above the last clock", LONG, &above);
    let at = [
        opens(1, 1, 2),
        serves(4),
        opens(1, 1, 2),
        serves(18),
        takes(4, 0, 11),
        term(5, 15, 26),
        opens(2, 1, 2),
        tick(u32::MAX - 1),
        takes(5, 4, 27),
        forgets(2),
        tick(u32::MAX),
        takes(4, 2, 23),
        takes(6, 0, 28),
        forgets(2),
    ];
    script.walk("lives to the last clock", LONG, &at);
}

/// A delivery and a confirmation made up, before and after K leaks.
pub fn leaked_key(script: &mut Script<World>) {
    let calls = [
        opens(1, 1, 2),
        serves(4),
        takes(4, 0, 11),
        opens(2, 1, 2),
        term(1, 0, 7),
        term(5, 0, 17),
        term(6, 18, 5),
        term(5, 15, 19),
        term(6, 6, 5),
        takes(5, 2, 20),
        takes(6, 0, 21),
        leaks(1),
        asks(5),
        takes(5, 2, 20),
        takes(6, 0, 21),
        leaks(1),
    ];
    script.walk("a leaked key", HEADER, &calls);
}
