//! The proved engine beside the reference: the wrapper of the front end, asked with
//! the reference's headers and records. The wrapper knows nothing of the reference,
//! and the reference nothing of the engine.

pub use engine::{is_marked, list, listing, Answer, Entry, Realm, Tables};
pub use engine::{CACHE_PLACES, LISTING_BYTES, RUN_WORDS, TERM_PLACES, WIRE_WORDS};

use engine::Call;
use reference::file::{Header, Record};

pub fn header(header: &Header) -> engine::Header {
    engine::Header {
        mark: header.mark,
        n: header.principals,
        flags: header.flags,
        ticket_life: header.ticket_life,
        authenticator_life: header.authenticator_life,
    }
}

/// Empty tables with a header's values, whatever these are, and its rule set.
pub fn tables(header: &Header) -> Tables {
    Tables::of(Realm {
        n: header.principals,
        rules: header.settings().rules,
        flags: header.flags,
        ticket_life: header.ticket_life,
        authenticator_life: header.authenticator_life,
        clock: 0,
        terms: 0,
        runs: 0,
        entries: 0,
    })
}

pub fn call(tables: &mut Tables, record: &Record) -> Answer {
    tables.call(match record {
        Record::Term(term) => Call::Term { kind: term.kind, l: term.left, r: term.right },
        Record::Step(step) => Call::Step {
            step: step.step,
            run: step.run,
            a: step.a,
            b: step.b,
            m: step.message,
            t: step.time,
        },
    })
}

/// Writes a walk, a record being seven words as in `reference::writing`.
pub fn write(of: &Header, words: &[u32], buffer: &mut [u8], at: usize) -> Result<usize, u8> {
    engine::write(header(of), words, buffer, at)
}
