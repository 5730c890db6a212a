//! Tables filled to the last place.

use reference::file::Header;

use super::{
    asks, exchanged, exchanged_in, forgets, leaks, made, made_all, opens, prepared, serves, takes,
    term, tick, Call, HEADER,
};
use crate::calls::World;
use crate::Script;

/// 13, and the last run.
pub fn all_runs(script: &mut Script<World>) {
    let with_runs = |end: usize| made_all(&exchanged(), &vec![opens(2, 2, 1); end - 4]);
    let last = with_runs(63);
    let mut case = |text: &str, world: &World, call: Call| script.case(text, world, call);
    case("63 runs, step 1", &last, opens(1, 1, 2));
    case("63 runs, step 2", &last, opens(2, 1, 2));
    case("63 runs, step 3", &last, serves(4));
    let all = with_runs(64);
    case("64 runs, step 1", &all, opens(1, 1, 2));
    case("64 runs, step 2", &all, opens(2, 1, 2));
    case("64 runs, step 3", &all, serves(4));
    case("64 runs, step 3 with a principal", &all, serves(0));
    case("64 runs, step 1 with a 0", &all, opens(1, 0, 2));
    case("64 runs, step 6", &all, takes(6, 0, 18));
}

/// 20, and the last terms: pairs of the last term with itself up to there. Step
/// 1 from run 4 needs three terms that are new, its nonce and two pairs.
pub fn all_terms(script: &mut Script<World>) {
    let with_terms = |end: u32| {
        let pairs: Vec<Call> = (18..end - 1).map(|i| term(5, i, i)).collect();
        made_all(&exchanged(), &pairs)
    };
    let mut case = |text: &str, world: &World, call: Call| script.case(text, world, call);
    case("509 terms, step 1", &with_terms(509), opens(1, 1, 2));
    case("510 terms, step 1", &with_terms(510), opens(1, 1, 2));
    case("510 terms, step 3", &with_terms(510), serves(4));
    case("511 terms, a nonce", &with_terms(511), term(2, 95, 0));
    let full = with_terms(512);
    case("512 terms, a nonce", &full, term(2, 95, 0));
    case("512 terms, the pair that is the last", &full, term(5, 510, 510));
    case("512 terms, principal 1", &full, term(0, 1, 0));
    case("512 terms, nonce 96", &full, term(2, 96, 0));
    case("512 terms, step 1", &full, opens(1, 1, 2));
    case("512 terms, step 2", &full, opens(2, 1, 2));
    case("512 terms, step 3", &full, serves(4));
    case("512 terms, step 6", &full, takes(6, 0, 18));
    case("512 terms, step 7", &full, tick(6));
    case("512 terms, step 9", &full, leaks(1));
    case("512 terms, step 10 with the last", &full, asks(511));
}

/// The exchange, and so many entries more. Deliveries are made up and taken, for K
/// has leaked; their times are 6, 7 and so on, and La is 20.
pub fn with_entries(more: usize) -> World {
    let leaked = made(&exchanged_in(Header { authenticator_life: 20, ..HEADER }), leaks(1));
    (0..more).fold(leaked, |world, _| {
        let (run, t) = (world.tables.counts.runs as u32, world.tables.counts.terms as u32);
        made(&prepared(&world), takes(5, run, t + 3))
    })
}

/// 19, and the last entry: run 3 takes a delivery that is prepared behind the terms
/// that there are.
pub fn all_entries(script: &mut Script<World>) {
    let mut case = |text: &str, world: &World, call: Call| script.case(text, world, call);
    let fifteen = prepared(&with_entries(14));
    case("15 entries, step 5", &fifteen, takes(5, 3, 92));
    case("15 entries, step 5 with a delivery again", &fifteen, takes(5, 3, 17));
    let all = prepared(&with_entries(15));
    case("16 entries, step 5", &all, takes(5, 3, 97));
    case("16 entries, step 5 with a delivery again", &all, takes(5, 3, 17));
    case("16 entries, step 8", &all, forgets(2));
    let later = made(&all, tick(30));
    case("16 entries, step 8 at clock 30", &later, forgets(2));
    case("step 5 after it", &made(&later, forgets(2)), takes(5, 3, 97));
}
