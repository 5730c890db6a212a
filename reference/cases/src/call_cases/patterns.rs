//! Entries that go and entries that stay, in patterns over the places: forgotten
//! by step 8, and by `forget` alone.

use reference::tables::Place;

use super::{forgets, opened, purges, remembers, Call, HEADER};
use crate::calls::World;
use crate::Script;

/// At this clock with a life of 10, entries of Ta 5 are over and those of Ta 6 are
/// not.
const CLOCK: u32 = 15;

/// A purge of a principal, in words and as a call.
type Purge = (&'static str, fn(u32) -> Call);

const PURGES: [Purge; 2] = [("step 8", forgets), ("forget alone", alone)];

fn alone(b: u32) -> Call {
    purges(b, CLOCK, HEADER.authenticator_life)
}

/// What a purge of 2 forgets: an entry for each letter, g for one that goes and s
/// for one that stays.
const PATTERNS: [(&str, &str); 11] = [
    ("every second of 16, the first too", "gsgsgsgsgsgsgsgs"),
    ("every second of 16, the last too", "sgsgsgsgsgsgsgsg"),
    ("the first half of 16", "ggggggggssssssss"),
    ("the last half of 16", "ssssssssgggggggg"),
    ("two and two of 16", "ggssggssggssggss"),
    ("the first of 16", "gsssssssssssssss"),
    ("the last of 16", "sssssssssssssssg"),
    ("all of 16", "gggggggggggggggg"),
    ("none of 16", "ssssssssssssssss"),
    ("four of 7", "sggsggs"),
    ("none of none", ""),
];

/// One that stays is of 2 and not over, or over and of 1. Past the count stand
/// entries that would go, if they were read.
fn entries(pattern: &str) -> World {
    let mut world = opened(HEADER);
    world.tables.clock = CLOCK;
    world.tables.counts.entries = pattern.len();
    let letters = pattern.chars().chain("g".chars().cycle());
    for (place, letter) in letters.take(world.lent.cache).enumerate() {
        let (b, ta) = match (letter, place / 2 % 2) {
            ('g', _) => (2, 5),
            (_, 0) => (2, 6),
            _ => (1, 5),
        };
        world.tables.cache[place] = Place { b, k: place as u16, ta };
    }
    world
}

pub fn each(script: &mut Script<World>) {
    for (name, pattern) in PATTERNS {
        for (how, purge) in PURGES {
            script.case(&format!("{how}, {name} forgotten"), &entries(pattern), purge(2));
        }
    }
}

/// A purge of each principal: what is left of one is what the next finds.
pub fn in_turn(script: &mut Script<World>) {
    for (how, purge) in PURGES {
        script.set(&entries(PATTERNS[0].1));
        script.calls(&format!("{how} in turn"), &[0, 1, 2, 1, 0].map(purge));
        script.set(&entries(PATTERNS[0].1));
        script.calls(&format!("{how}, 2 before 1"), &[2, 1, 2].map(purge));
    }
}

/// An entry that was moved is still found, and a freed place is filled again.
pub fn found_again(script: &mut Script<World>) {
    script.set(&entries(PATTERNS[0].1));
    let (moved, new) = (remembers(2, 13, 6), remembers(2, 16, 6));
    script.calls("moved and freed", &[moved, new, alone(2), moved, new, new]);
}
