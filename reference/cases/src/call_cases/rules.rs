//! The rule sets: an exchange under H5 and H4, any X in place of the ticket, tables
//! that name each set, and tables that name none.

use reference::file::Header;
use reference::marks::mark;

use super::{
    exchanged, made_all, opened, opens, serves, step, takes, term, tick, Call, HEADER, WIDE,
};
use crate::calls::World;
use crate::Script;

/// "the layout and limits of HW"
pub const H5: Header = Header { mark: mark(b"H5"), ..HEADER };
pub const H4: Header = Header { mark: mark(b"H4"), ..HEADER };

/// Case F under H5 and H4: the same calls, since what the server sends is term 16
/// under both.
pub fn exchanges(script: &mut Script<World>) {
    let calls = [
        opens(1, 1, 2),
        serves(4),
        takes(4, 0, 16),
        opens(2, 1, 2),
        takes(5, 2, 18),
        takes(6, 0, 19),
        opens(2, 1, 2),
        takes(5, 3, 18),
    ];
    script.walk("F under H5", H5, &calls);
    script.walk("F under H4", H4, &calls);
}

/// X is a principal, which the responder turns away; the authenticator comes again
/// with the ticket. Under H4 1 is bad, and the intruder makes its part.
pub fn another_x(script: &mut Script<World>) {
    let beside = [
        opens(1, 1, 2),
        serves(4),
        term(5, 11, 0),
        takes(4, 0, 17),
        opens(2, 1, 2),
        takes(5, 2, 19),
        term(5, 15, 18),
        takes(5, 2, 20),
        takes(6, 0, 21),
    ];
    script.walk("another X under H5", H5, &beside);
    let within = [
        opens(1, 1, 2),
        serves(4),
        term(5, 2, 0),
        term(5, 6, 17),
        term(5, 1, 18),
        term(5, 5, 19),
        term(6, 20, 15),
        takes(4, 0, 21),
        opens(2, 1, 2),
        takes(5, 2, 23),
        term(5, 10, 22),
        takes(5, 2, 24),
        takes(6, 0, 25),
    ];
    script.walk("another X under H4", Header { flags: 2, ..H4 }, &within);
    let hidden = [opens(1, 1, 2), serves(4), term(5, 11, 14), takes(4, 0, 17)];
    script.walk("X that nobody sent, under H5", H5, &hidden);
}

/// 1 and 2 by the limits of HW.
pub fn openings(script: &mut Script<World>) {
    let used = exchanged();
    for (letters, header) in [("H5", H5), ("H4", H4)] {
        let mut open = |text: &str, header: Header| {
            script.set(&used);
            script.open(&format!("open {letters}, {text}"), header);
        };
        let wide = Header { mark: header.mark, ..WIDE };
        open("n 3", header);
        open("n 32 and every flag", Header { flags: !1, ..wide });
        open("n 33", Header { principals: 33, ..wide });
        open("n 31 and a flag at 31", Header { principals: 31, flags: 1 << 31, ..wide });
    }
    script.set(&used);
    script.open("open with the mark H6", Header { mark: mark(b"H6"), ..HEADER });
}

fn with_set(world: &World, number: u8) -> World {
    let mut world = world.clone();
    world.tables.settings.rules = number;
    world
}

/// A reply is taken by the tables of its own set alone: 14 by others.
pub fn named(script: &mut Script<World>) {
    for (letters, header, reply) in [("HD", HEADER, 11), ("H5", H5, 16), ("H4", H4, 16)] {
        let served = made_all(&opened(header), &[opens(1, 1, 2), serves(4)]);
        for number in 0..3 {
            let text = format!("rule set {number}, step 4 with the reply of {letters}");
            script.case(&text, &with_set(&served, number), takes(4, 0, reply));
        }
    }
}

/// 10 for tables that name no set, whatever the call.
pub fn not_named(script: &mut Script<World>) {
    for number in [0, 1, 2, 3, 4, 128, 255] {
        let world = with_set(&exchanged(), number);
        script.case(&format!("rule set {number}, step 7"), &world, tick(5));
    }
    let world = with_set(&exchanged(), 3);
    let mut case = |text: &str, call: Call| {
        script.case(&format!("rule set 3, {text}"), &world, call);
    };
    case("a term that is present", term(0, 1, 0));
    case("step 0", step(0, 0, 0, 0, 0, 0));
    case("step 4 of a responder", takes(4, 3, 11));
}
