//! Calls on lent tables: beside the realm's own over whole walks, and refusal 10.

use std::fs;
use std::path::PathBuf;

use reference::file::{read_header, read_record, Record, Settings, StepRecord};
use reference::realm::{Answer, Realm, MAX_ENTRIES};
use reference::refusal::Refusal;
use reference::tables::{
    forget, remember, Counts, Place, Tables, RUN_WORDS, TERM_PLACES, WIRE_WORDS,
};

/// Tables of a new realm, with what is no term, run or entry in their places.
fn tables(settings: Settings) -> Tables {
    Tables {
        settings,
        clock: 0,
        counts: Counts::default(),
        terms: vec![u64::MAX; TERM_PLACES],
        runs: vec![u32::MAX; RUN_WORDS],
        wire: vec![0; WIRE_WORDS],
        cache: vec![Place { b: 99, k: 99, ta: 99 }; MAX_ENTRIES],
    }
}

fn examples() -> PathBuf {
    PathBuf::from(env!("CARGO_MANIFEST_DIR")).join("../examples")
}

/// What a walk's header says, and its records.
fn walk(path: PathBuf) -> (Settings, Vec<Record>) {
    let file = fs::read(path).unwrap();
    let (header, mut rest) = read_header(&file).unwrap();
    let mut records = Vec::new();
    while let Some(Ok((record, after))) = read_record(rest) {
        records.push(record);
        rest = after;
    }
    (header.settings(), records)
}

fn tick(t: u32) -> Record {
    Record::Step(StepRecord { step: 7, time: t, ..StepRecord::default() })
}

/// Case F's tables.
fn exchanged() -> Tables {
    let (settings, records) = walk(examples().join("case-f.walk"));
    let mut tables = tables(settings);
    for record in records {
        let _ = tables.call(&record);
    }
    assert_eq!(tables.counts, Counts { terms: 19, runs: 4, entries: 1 });
    tables
}

#[test]
fn a_walk_over_tables_is_the_realms() {
    let paths = fs::read_dir(examples()).unwrap().map(|entry| entry.unwrap().path());
    for path in paths.filter(|path| path.extension().is_some_and(|name| name == "walk")) {
        let (settings, records) = walk(path);
        let (mut realm, mut tables) = (Realm::new(settings), tables(settings));
        for record in records {
            let before = tables.clone();
            let answer = tables.call(&record);
            assert_eq!(answer, realm.apply(&record), "{record:?}");
            if answer.is_err() {
                assert_eq!(tables, before, "{record:?}");
            }
            assert_eq!(tables.clock, realm.clock);
            assert_eq!(tables.counts.terms, realm.terms.count());
            assert_eq!(tables.realm().ok().unwrap().runs, realm.runs);
            assert_eq!(tables.realm().ok().unwrap().cache, realm.cache);
            let marks: u32 = tables.wire.iter().map(|word| word.count_ones()).sum();
            assert_eq!(marks as usize, realm.wire.len());
        }
    }
}

#[test]
fn places_past_the_counts_stay_until_they_are_filled() {
    let tables = exchanged();
    assert!(tables.terms[18] != u64::MAX && tables.terms[19..].iter().all(|w| *w == u64::MAX));
    assert!(tables.runs[27] == 0 && tables.runs[28..].iter().all(|w| *w == u32::MAX));
    assert!(tables.cache[0].ta == 0 && tables.cache[1..].iter().all(|e| e.ta == 99));
}

#[test]
fn forgotten_entries_leave_zeros() {
    let mut tables = exchanged();
    tables.call(&tick(10)).unwrap();
    let forgets = Record::Step(StepRecord { step: 8, b: 2, ..StepRecord::default() });
    assert_eq!(tables.call(&forgets), Ok(Answer::Step { run: None, added: 0 }));
    assert_eq!(tables.counts.entries, 0);
    assert_eq!(tables.cache[0], Place::default());
    assert_eq!(tables.cache[1].ta, 99);
}

/// Those that stay move to the front in their order, behind them stand as many
/// zeros as entries went, and places past the count keep their values.
#[test]
fn entries_that_stay_keep_their_order() {
    let place = |b: u16, k: u16, ta: u32| Place { b, k, ta };
    let (zero, no_entry) = (Place::default(), place(99, 99, 99));
    let mut list = [no_entry; MAX_ENTRIES];
    list[..7].copy_from_slice(&[
        place(2, 1, 0),
        place(3, 2, 0),
        place(2, 3, 1),
        place(2, 4, 0),
        place(2, 5, 5),
        place(1, 6, 0),
        place(2, 7, 0),
    ]);
    assert_eq!(forget(&mut list, 7, 2, 10, 10), Ok(4));
    let left = [place(3, 2, 0), place(2, 3, 1), place(2, 5, 5), place(1, 6, 0)];
    assert_eq!(list[..4], left);
    assert_eq!(list[4..7], [zero; 3]);
    assert_eq!(list[7..], [no_entry; 9]);
    assert_eq!(forget(&mut list, 4, 3, 10, 10), Ok(3));
    assert_eq!(list[..7], [left[1], left[2], left[3], zero, zero, zero, zero]);
}

#[test]
fn the_steps_do_what_the_two_calls_do() {
    let (settings, records) = walk(examples().join("case-f.walk"));
    let mut tables = tables(settings);
    for record in records {
        let before = tables.clone();
        let answer = tables.call(&record);
        if matches!(record, Record::Step(StepRecord { step: 5, .. })) {
            let mut list = before.cache.clone();
            let count = remember(&mut list, before.counts.entries, Place { b: 2, k: 1, ta: 0 });
            assert_eq!(count.err(), answer.err());
            assert_eq!(list, tables.cache);
        }
    }
    for clock in [9, 10] {
        tables.call(&tick(clock)).unwrap();
        let (mut list, count) = (tables.cache.clone(), tables.counts.entries);
        let forgets = Record::Step(StepRecord { step: 8, b: 2, ..StepRecord::default() });
        tables.call(&forgets).unwrap();
        assert_eq!(forget(&mut list, count, 2, clock, 10), Ok(tables.counts.entries));
        assert_eq!(list, tables.cache);
    }
    assert_eq!(tables.counts.entries, 0);
}

#[test]
fn each_thing_spoilt_alone_gives_10() {
    let spoil: [fn(&mut Tables); 15] = [
        |t| t.settings.flags = 1,
        |t| t.settings.rules = 3,
        |t| t.terms.push(0),
        |t| t.runs.truncate(447),
        |t| t.wire.clear(),
        |t| t.cache.truncate(15),
        |t| t.cache.push(Place::default()),
        |t| t.counts.terms = 513,
        |t| t.counts.runs = 65,
        |t| t.counts.entries = 17,
        |t| t.terms[18] = t.terms[17],
        |t| t.terms[18] |= 1 << 40,
        |t| t.runs[1] = 0,
        |t| t.wire[7] = 1 << 63,
        |t| t.cache[0].k = 96,
    ];
    assert_eq!(exchanged().call(&tick(0)), Ok(Answer::Step { run: None, added: 0 }));
    for (number, spoil) in spoil.iter().enumerate() {
        let mut tables = exchanged();
        spoil(&mut tables);
        let before = tables.clone();
        assert_eq!(tables.call(&tick(0)), Err(Refusal::BrokenTables), "{number}");
        assert_eq!(tables, before, "{number}");
    }
}
