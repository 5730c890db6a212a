//! Purges through the proved engine's public call: every place of the tables
//! afterwards, beside the reference's. A listing does not show the order of the
//! entries, nor the places that are freed.

use generator::purges::each_tick;
use generator::random::Random;
use lent::{call, Answer, Entry, Tables, CACHE_PLACES};
use reference::file::{read_header, read_record, Header, Record, Settings, StepRecord};
use reference::marks::mark;
use reference::tables::{self, forget, Counts, Place};

const CLOCK: u32 = 10;
const LIFE: u32 = 5;
/// What is no entry, in the places past the count.
const NO_ENTRY: Entry = Entry { b: 99, k: 999, ta: 7 };

const HEADER: Header = Header {
    mark: mark(b"HD"),
    principals: 5,
    flags: 0,
    ticket_life: 100,
    authenticator_life: LIFE,
};

fn purge(b: u8) -> Record {
    Record::Step(StepRecord { step: 8, b, ..StepRecord::default() })
}

fn places(cache: &[Entry]) -> Vec<Place> {
    cache.iter().map(|entry| Place { b: entry.b, k: entry.k, ta: entry.ta }).collect()
}

/// So many entries, of which those go that the bits say when 2 purges. One that
/// stays is of 2 and not over, or over and of 3.
fn cache(count: usize, bits: usize, first_of_2: bool) -> Vec<Entry> {
    let mut cache = vec![NO_ENTRY; CACHE_PLACES];
    for (place, entry) in cache[..count].iter_mut().enumerate() {
        let goes = bits >> place & 1 == 1;
        let of_2 = (place % 2 == 0) == first_of_2;
        let (b, ta) = match (goes, of_2) {
            (true, _) => (2, CLOCK - LIFE),
            (false, true) => (2, CLOCK - LIFE + 1),
            (false, false) => (3, CLOCK - LIFE),
        };
        *entry = Entry { b, k: place as u16, ta };
    }
    cache
}

/// A purge of b's entries leaves what the reference's `forget` does.
fn compare(tables: &mut Tables, b: u8) {
    let before = places(&tables.cache);
    let mut expected = before.clone();
    let left = forget(&mut expected, tables.realm.entries, b.into(), CLOCK, LIFE).unwrap();
    assert_eq!(call(tables, &purge(b)), Answer::Ok { run: None, added: 0 });
    assert_eq!(places(&tables.cache), expected, "{b} of {before:?}");
    assert_eq!(tables.realm.entries, left, "{b} of {before:?}");
}

/// Every pattern of entries that go and stay, from none to sixteen; then the purge
/// of another, on what the first has left.
#[test]
fn every_pattern_is_left_as_by_the_reference() {
    let mut tables = lent::tables(&HEADER);
    tables.realm.clock = CLOCK;
    let others = tables.clone();
    for count in 0..=CACHE_PLACES {
        for bits in 0..1 << count {
            for first_of_2 in [true, false] {
                tables.cache = cache(count, bits, first_of_2);
                tables.realm.entries = count;
                compare(&mut tables, 2);
                let gone = bits.count_ones() as usize;
                assert_eq!(tables.realm.entries, count - gone, "{bits:b}");
                compare(&mut tables, 3);
            }
        }
    }
    (tables.cache, tables.realm.entries) = (others.cache.clone(), 0);
    assert_eq!(tables, others, "nothing else has changed");
}

/// The tables as the reference has them.
fn whole(lent: &Tables) -> tables::Tables {
    let realm = lent.realm;
    tables::Tables {
        settings: Settings {
            principals: realm.n,
            rules: realm.rules,
            flags: realm.flags,
            ticket_life: realm.ticket_life,
            authenticator_life: realm.authenticator_life,
        },
        clock: realm.clock,
        counts: Counts { terms: realm.terms, runs: realm.runs, entries: realm.entries },
        terms: lent.terms.clone(),
        runs: lent.runs.clone(),
        wire: lent.wire.clone(),
        cache: places(&lent.cache),
    }
}

/// Every place of every table, record by record, over walks with purges at every
/// tick. Places past the counts hold what is no term, run or entry.
#[test]
fn walks_leave_every_place_as_the_reference_does() {
    let mut forgotten = 0;
    for number in 0..100 {
        let file = each_tick(&mut Random::new(1, number)).bytes;
        let (header, mut rest) = read_header(&file).unwrap();
        let mut tables = lent::tables(&header);
        tables.terms.fill(u64::MAX);
        tables.runs.fill(u32::MAX);
        tables.cache.fill(NO_ENTRY);
        let mut expected = whole(&tables);
        while let Some(Ok((record, after))) = read_record(rest) {
            rest = after;
            let entries = expected.counts.entries;
            let accepted = expected.call(&record).is_ok();
            forgotten += entries.saturating_sub(expected.counts.entries);
            let answer = call(&mut tables, &record);
            assert_eq!(!matches!(answer, Answer::Refused(_)), accepted, "{number}: {record:?}");
            assert_eq!(whole(&tables), expected, "{number}: {record:?}");
        }
    }
    assert!(forgotten > 500, "{forgotten}");
}
