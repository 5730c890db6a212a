//! `remember` and `forget`, called alone on a list and a count.

use reference::tables::Place;

use super::{purges, remembers, Call};
use crate::calls::{Lent, World, FULL};
use crate::Script;

/// Cases B and C: an entry of Ta 0 with La 10 is there at clock 9 and gone at
/// 10, and may then come again. Sums of times do not wrap.
pub fn lives(script: &mut Script<World>) {
    let entry = remembers(2, 5, 0);
    script.set(&World::default());
    script.calls("alone", &[entry, entry, purges(2, 9, 10), purges(2, 10, 10), entry]);
    let top = u32::MAX;
    let highest =
        [remembers(1, 95, top), remembers(1, 95, 0), purges(1, top - 1, top), purges(1, top, top)];
    script.set(&World::default());
    script.calls("highest times", &highest);
}

/// Sixteen entries; a repeat is refused as one, and only another finds the cache
/// full.
pub fn sixteen(script: &mut Script<World>) {
    let mut calls: Vec<Call> = (0..16).map(|k| remembers(3, k, 7)).collect();
    calls.extend([remembers(3, 0, 7), remembers(3, 16, 7), purges(3, 9, 2), remembers(3, 16, 7)]);
    script.set(&World::default());
    script.calls("sixteen", &calls);
}

/// Only the principal's own entries go, and the others keep their order.
pub fn others_stay(script: &mut Script<World>) {
    let entries = [(1, 10, 5), (2, 11, 5), (1, 12, 6), (3, 13, 5), (1, 14, 5)];
    let mut calls: Vec<Call> = entries.map(|(b, k, ta)| remembers(b, k, ta)).to_vec();
    calls.extend([purges(1, 10, 5), purges(0, u32::MAX, 1)]);
    script.set(&World::default());
    script.calls("others stay", &calls);
}

/// Nines in every place.
fn nines(count: usize, lent: usize) -> World {
    let mut world = World { lent: Lent { cache: lent, ..FULL }, ..World::default() };
    world.tables.cache.fill(Place { b: 9, k: 9, ta: 9 });
    world.tables.counts.entries = count;
    world
}

/// Places at or past the count are not read and keep their values.
pub fn behind_the_count(script: &mut Script<World>) {
    script.set(&nines(2, 16));
    let calls = [purges(9, 11, 1), remembers(9, 9, 9), remembers(4, 4, 4)];
    script.calls("behind the count", &calls);
}

/// 10 for a list or count that does not fit, from both calls, with what would be
/// in order, and what would be refused.
pub fn misfits(script: &mut Script<World>) {
    let mut calls = |text: &str, count: usize, lent: usize| {
        let world = nines(count, lent);
        script.case(&format!("{text}, remember"), &world, remembers(4, 4, 4));
        script.case(&format!("{text}, remember again"), &world, remembers(9, 9, 9));
        script.case(&format!("{text}, forget"), &world, purges(9, 11, 1));
    };
    calls("16 places, count 1", 1, 16);
    calls("16 places, count 17", 17, 16);
    calls("15 places, count 1", 1, 15);
    calls("17 places, count 1", 1, 17);
    calls("no place, count 0", 0, 0);
    calls("17 places, count 17", 17, 17);
}
