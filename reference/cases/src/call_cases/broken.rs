//! Refusals 1 and 2, and refusal 10 in each of its causes.

use reference::file::Header;
use reference::marks::mark;
use reference::tables::{Place, ROW};

use super::{exchanged, step, tick, Call, HEADER, LONG, WIDE};
use crate::calls::{word, Lent, World, FULL};
use crate::Script;

/// 1 for another mark, 2 for each value that a realm cannot have by its mark. The
/// realm before has been in use.
pub fn openings(script: &mut Script<World>) {
    let used = exchanged();
    let mut open = |text: &str, header: Header| {
        script.set(&used);
        script.open(text, header);
    };
    let least = Header { flags: 6, ticket_life: 1, authenticator_life: 1, ..HEADER };
    open("open n 3", least);
    open("open n 16", Header { principals: 16, flags: 65534, ..LONG });
    open("open n 0", Header { principals: 0, ..HEADER });
    open("open n 2", Header { principals: 2, ..HEADER });
    open("open n 17", Header { principals: 17, ..HEADER });
    open("open n 255", Header { principals: 255, ..HEADER });
    open("open with a flag on the server", Header { flags: 1, ..HEADER });
    open("open with a flag at n", Header { flags: 8, ..HEADER });
    open("open with a flag above n", Header { flags: 32768, ..HEADER });
    open("open with Ls 0", Header { ticket_life: 0, ..HEADER });
    open("open with La 0", Header { authenticator_life: 0, ..HEADER });
    open("open with a flag at 16", Header { principals: 16, flags: 1 << 16, ..HEADER });
    open("open wide, n 17", Header { principals: 17, flags: 1 << 16, ..WIDE });
    open("open wide, n 32", WIDE);
    open("open wide, n 32 and every flag", Header { flags: !1, ..WIDE });
    open("open wide, n 33", Header { principals: 33, ..WIDE });
    open("open wide, n 31 and a flag at 31", Header { principals: 31, flags: 1 << 31, ..WIDE });
    open("open with another mark", Header { mark: mark(b"HX"), ..HEADER });
    open("open with another mark and n 2", Header { mark: 0, principals: 2, ..HEADER });
}

/// 10 for a header that 2 would refuse: the tables after an exchange with one
/// thing spoilt, and a call that would pass, here and below.
pub fn headers(script: &mut Script<World>) {
    let mut header = |text: &str, header: Header| {
        let mut world = exchanged();
        world.tables.settings = header.settings();
        script.case(text, &world, tick(5));
    };
    header("header in order", Header { flags: 6, ..HEADER });
    header("header n 2", Header { principals: 2, ..HEADER });
    header("header in order: n 32, every flag", Header { flags: !1, ..WIDE });
    header("header n 33", Header { principals: 33, ..HEADER });
    header("header n 31, flag at 31", Header { principals: 31, flags: 1 << 31, ..HEADER });
    header("header flag on the server", Header { flags: 1, ..HEADER });
    header("header flag at n", Header { flags: 8, ..HEADER });
    header("header Ls 0", Header { ticket_life: 0, ..HEADER });
    header("header La 0", Header { authenticator_life: 0, ..HEADER });
}

/// 10 for a table with other than its full number of places, and for a count
/// over its limit.
pub fn lengths_and_counts(script: &mut Script<World>) {
    let mut lent = |text: &str, lent: Lent| {
        let world = World { lent, ..exchanged() };
        script.case(text, &world, tick(5));
    };
    lent("lengths in order", FULL);
    lent("terms of 511 places", Lent { terms: 511, ..FULL });
    lent("terms of 513 places", Lent { terms: 513, ..FULL });
    lent("runs of 447 words", Lent { runs: 447, ..FULL });
    lent("runs of 449 words", Lent { runs: 449, ..FULL });
    lent("wire of 7 words", Lent { wire: 7, ..FULL });
    lent("wire of 9 words", Lent { wire: 9, ..FULL });
    lent("cache of 15 places", Lent { cache: 15, ..FULL });
    lent("cache of 17 places", Lent { cache: 17, ..FULL });
    lent("terms of no place", Lent { terms: 0, ..FULL });
    lent("runs of no word", Lent { runs: 0, ..FULL });
    lent("wire of no word", Lent { wire: 0, ..FULL });
    lent("cache of no place", Lent { cache: 0, ..FULL });
    let mut count = |text: &str, terms: usize, runs: usize, entries: usize, call: Call| {
        let mut world = exchanged();
        world.tables.counts.terms = terms;
        world.tables.counts.runs = runs;
        world.tables.counts.entries = entries;
        script.case(text, &world, call);
    };
    count("counts in order", 19, 4, 1, tick(5));
    count("count of terms 513", 513, 4, 1, tick(5));
    count("count of runs 65", 19, 65, 1, tick(5));
    count("count of entries 17", 19, 4, 17, tick(5));
    count("count of entries 17, step 0", 19, 4, 17, step(0, 0, 0, 0, 0, 0));
    count("count of entries 17, t below the clock", 19, 4, 17, tick(4));
}

/// 10 for a term: term 18 is spoilt.
pub fn terms(script: &mut Script<World>) {
    let mut spoilt = |text: &str, kind: u32, left: u32, right: u32| {
        let mut world = exchanged();
        world.tables.terms[18] = word(kind, left, right);
        script.case(text, &world, tick(5));
    };
    spoilt("term in order", 6, 17, 5);
    spoilt("term of kind 7", 7, 0, 0);
    spoilt("term of kind 262", 262, 17, 5);
    spoilt("term with R not used", 0, 0, 1);
    spoilt("term principal 3 of 3", 0, 3, 0);
    spoilt("term nonce 96", 2, 96, 0);
    spoilt("term long-term key of 3 of 3", 3, 3, 0);
    spoilt("term session key 96", 4, 96, 0);
    spoilt("term pair of itself and another", 5, 18, 0);
    spoilt("term pair of another and itself", 5, 0, 18);
    spoilt("term itself under a key", 6, 18, 5);
    spoilt("term under a principal", 6, 17, 0);
    spoilt("term that stands twice", 4, 1, 0);
}

/// 10 for a run: one word is spoilt.
pub fn runs(script: &mut Script<World>) {
    let mut spoilt = |text: &str, run: usize, field: usize, value: u32| {
        let mut world = exchanged();
        world.tables.runs[run * ROW + field] = value;
        script.case(text, &world, tick(5));
    };
    let (initiator, server, responder) = (0, 1, 2);
    let (role, stage, a, b, k, ts) = (0, 1, 2, 3, 4, 5);
    spoilt("run in order: initiator done", initiator, stage, 3);
    spoilt("run of role 0", initiator, role, 0);
    spoilt("run of role 4", initiator, role, 4);
    spoilt("run of stage 0", initiator, stage, 0);
    spoilt("run of stage 4", initiator, stage, 4);
    spoilt("run: responder after step 4", responder, stage, 2);
    spoilt("run: server opened", server, stage, 1);
    spoilt("run: server after step 4", server, stage, 2);
    spoilt("run with a 0", initiator, a, 0);
    spoilt("run with a 3 of 3", initiator, a, 3);
    spoilt("run with a 257", initiator, a, 257);
    spoilt("run with b 0", initiator, b, 0);
    spoilt("run with b 3 of 3", initiator, b, 3);
    spoilt("run with b 258", initiator, b, 258);
    spoilt("run with b as a", responder, b, 1);
    spoilt("run in order: K 95", initiator, k, 95);
    spoilt("run with K 96", initiator, k, 96);
    spoilt("run with K 257", responder, k, 257);
    spoilt("run: server with another K", server, k, 0);
    spoilt("run in order: other times", responder, ts, u32::MAX);
    let mut world = exchanged();
    world.tables.terms[5] = word(4, 2, 0);
    script.case("run: server whose key is no term", &world, tick(5));
}

/// 10 for an entry, and for a mark.
pub fn entries_and_marks(script: &mut Script<World>) {
    let mut entry = |text: &str, b: u16, k: u16| {
        let mut world = exchanged();
        world.tables.cache[0] = Place { b, k, ta: 9 };
        script.case(text, &world, tick(5));
    };
    entry("entry in order: b 2, K 95", 2, 95);
    entry("entry with b 3 of 3", 3, 1);
    entry("entry with K 96", 2, 96);
    let mut mark = |text: &str, number: usize| {
        let mut world = exchanged();
        world.tables.wire[number / 64] |= 1 << (number % 64);
        script.case(text, &world, tick(5));
    };
    mark("mark in order: the last term", 18);
    mark("mark past the last term", 19);
    mark("mark on the last place", 511);
}
