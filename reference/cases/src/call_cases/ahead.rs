//! 22: an authenticator's time above clock + La. K has leaked, so that the intruder
//! makes up deliveries with any time.

use reference::file::Header;
use reference::tables::Place;

use super::full::with_entries;
use super::{
    dated, exchanged, exchanged_in, leaks, made, opens, serves, takes, term, tick, Call, HEADER,
    LONG,
};
use crate::calls::World;
use crate::Script;

/// The exchange, its K leaked, and run 3 opened: a delivery made up is term 22.
fn leaked(header: Header) -> World {
    made(&exchanged_in(header), leaks(1))
}

/// The last tick that passes and the first that does not; sums past 32 bits.
pub fn exact_ticks(script: &mut Script<World>) {
    let mut case = |header: Header, clock: u32, ta: u32| {
        let Header { ticket_life: ls, authenticator_life: la, .. } = header;
        let text = format!("Ls {ls}, La {la}, clock {clock}, Ta {ta}");
        let world = made(&leaked(header), tick(clock));
        script.case(&text, &dated(&world, ta), takes(5, 3, 22));
    };
    let top = u32::MAX;
    for (clock, ta) in [(5, 15), (5, 16), (9, 19), (9, 20), (5, top)] {
        case(HEADER, clock, ta);
    }
    for ta in [7, 8, 15, 16] {
        case(Header { ticket_life: 2, ..HEADER }, 5, ta);
    }
    let near_top = Header { ticket_life: top, authenticator_life: 10, ..HEADER };
    for clock in [top - 11, top - 10, top - 9, top] {
        case(near_top, clock, top);
    }
    for clock in [5, top - 1] {
        case(LONG, clock, top);
    }
}

/// At clock 0, where clock - La is below 0: Ta 0, La and La + 1, and the last again a
/// tick later.
pub fn at_clock_0(script: &mut Script<World>) {
    let deliveries = [
        opens(1, 1, 2),
        serves(4),
        takes(4, 0, 11),
        leaks(1),
        term(5, 15, 16),
        term(1, 0, 10),
        term(5, 0, 18),
        term(6, 19, 5),
        term(5, 15, 20),
        term(1, 0, 11),
        term(5, 0, 22),
        term(6, 23, 5),
        term(5, 15, 24),
        opens(2, 1, 2),
        opens(2, 1, 2),
        opens(2, 1, 2),
        takes(5, 2, 17),
        takes(5, 3, 21),
        takes(5, 4, 25),
        tick(1),
        takes(5, 4, 25),
    ];
    script.walk("times ahead at clock 0", HEADER, &deliveries);
}

/// After 15 and 16, before 18, 19 and 20. The entry of a time so far ahead is one
/// that only a caller can have put there.
pub fn order(script: &mut Script<World>) {
    let far = dated(&leaked(HEADER), 16);
    let mut case = |text: &str, world: &World, call: Call| script.case(text, world, call);
    case("15 and 22", &dated(&exchanged(), 16), takes(5, 3, 22));
    let expired = dated(&made(&leaked(HEADER), tick(105)), 116);
    case("16 and 22", &expired, takes(5, 3, 22));
    let remembered = with_entry(&far, Place { b: 2, k: 1, ta: 16 });
    case("22 and 18", &remembered, takes(5, 3, 22));
    case("18 a tick later", &made(&remembered, tick(6)), takes(5, 3, 22));
    let full = dated(&with_entries(15), 26);
    let m = full.tables.counts.terms as u32 - 1;
    case("22 and 19", &full, takes(5, 3, m));
    case("19 a tick later", &made(&full, tick(6)), takes(5, 3, m));
    let no_place = (23..512).fold(far, |world, i| made(&world, term(1, 9, i)));
    case("22 and 20", &no_place, takes(5, 3, 22));
    case("20 a tick later", &made(&no_place, tick(6)), takes(5, 3, 22));
}

/// The world with an entry more, put there by hand.
fn with_entry(world: &World, entry: Place) -> World {
    let mut world = world.clone();
    world.tables.cache[world.tables.counts.entries] = entry;
    world.tables.counts.entries += 1;
    world
}
