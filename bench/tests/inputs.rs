//! Each row's files are what its name says, by the listing of the reference and
//! the tables that it has after them.

mod common;

use std::collections::BTreeSet;

use bench::calls::sweeps;
use bench::deliveries;
use bench::rows::ROWS;
use bench::sides::compare;
use bench::walks::{self, LONG};
use bench::written::Walk;
use common::{answers, lines, realm, records};
use reference::file::{read_header, Record, MAX_FILE_BYTES};
use reference::listing;
use reference::terms::Message;
use reference::writing;

/// The honest walk where initiators carry the tickets.
const CARRIED: [fn(usize) -> Vec<u8>; 2] =
    [|eighths| walks::honest_under(b"H5", eighths), |eighths| walks::honest_under(b"H4", eighths)];

fn count(answers: &[String], answer: &str) -> usize {
    answers.iter().filter(|found| *found == answer).count()
}

#[test]
fn both_sides_do_every_row_alike() {
    for row in &ROWS {
        assert!(compare(&row.input(1)).is_ok(), "{}", row.name);
    }
}

#[test]
fn files_are_the_same_each_time() {
    for row in &ROWS {
        assert!((row.files)(1) == (row.files)(1), "{}", row.name);
    }
}

#[test]
fn long_files_grow_by_their_records() {
    let with_ticks: [fn(usize) -> Vec<u8>; 2] = [walks::purges, walks::principals];
    for make in LONG.into_iter().chain(CARRIED).chain(with_ticks) {
        let filling = lines(&make(0)).len();
        let repeated = lines(&make(1)).len() - filling;
        assert!(repeated > 500);
        for eighths in [2, 4, 8] {
            assert_eq!(lines(&make(eighths)).len(), filling + eighths * repeated);
        }
        let whole = make(8).len();
        assert!(MAX_FILE_BYTES - 100 < whole && whole <= MAX_FILE_BYTES, "{whole}");
    }
}

#[test]
fn records_that_repeat_leave_the_tables() {
    for make in LONG.into_iter().chain(CARRIED) {
        assert_eq!(lines(&make(0)).last(), lines(&make(8)).last());
        assert_eq!(realm(&make(0)).terms.count(), realm(&make(8)).terms.count());
    }
}

#[test]
fn the_honest_walks_have_exchanges_of_good_principals() {
    for (honest, rules) in [walks::honest, CARRIED[0], CARRIED[1]].into_iter().zip(0..) {
        let filling = answers(&honest(0));
        assert!(filling.iter().all(|answer| !answer.contains("refused")));
        let realm = realm(&honest(0));
        assert_eq!((realm.settings.flags, realm.settings.rules), (0, rules));
        assert_eq!(realm.runs.len(), 64);
        let held = realm.runs.iter().filter(|run| run.held.is_some()).count();
        assert_eq!(held, 63, "all but the second responder");
        let repeated = answers(&honest(8)).split_off(filling.len());
        let kinds: BTreeSet<&str> = repeated.iter().map(String::as_str).collect();
        assert_eq!(kinds.len(), 4, "{kinds:?}");
        let sixth = repeated.len() / 6;
        assert_eq!(count(&repeated, "ST refused 18") / sixth, 1);
        assert_eq!(count(&repeated, "ST refused 11") / sixth, 2);
        assert_eq!(count(&repeated, "ST ok - +0") / sixth, 2);
    }
}

/// What step 4 sends is delivered as it is: no term is spelt for it.
#[test]
fn carried_tickets_need_no_terms() {
    let spelt = |file: &[u8]| {
        records(file).iter().filter(|record| matches!(record, Record::Term(_))).count()
    };
    assert_eq!(spelt(&walks::honest(0)), 21);
    assert_eq!(CARRIED.map(|honest| spelt(&honest(0))), [0; 2]);
}

#[test]
fn the_walk_of_terms_has_terms_only() {
    let filling = answers(&walks::terms_only(0));
    let numbered: Vec<String> = (0..512).map(|number| format!("TM {number} new")).collect();
    let added: BTreeSet<&String> = filling.iter().filter(|line| line.ends_with("new")).collect();
    assert_eq!(added, numbered.iter().collect());
    let repeated = answers(&walks::terms_only(8)).split_off(filling.len());
    assert!(repeated.iter().all(|answer| answer.starts_with("TM ")));
    let full = count(&repeated, "TM refused 20");
    assert!(full.abs_diff(repeated.len() / 2) <= 1, "{full}");
    let present: BTreeSet<&String> = repeated.iter().collect();
    assert!(present.len() > 250, "terms all over the table");
}

#[test]
fn the_first_term_is_asked_for() {
    let filling = answers(&walks::first_term(0)).len();
    let repeated = answers(&walks::first_term(8)).split_off(filling);
    assert_eq!(count(&repeated, "TM 0 old"), repeated.len());
    assert_eq!(realm(&walks::first_term(8)).terms.count(), 512);
}

#[test]
fn deliveries_meet_full_tables() {
    let realm = realm(&walks::deliveries(0));
    assert_eq!((realm.terms.count(), realm.runs.len(), realm.cache.len()), (512, 64, 16));
    let filling = answers(&walks::deliveries(0)).len();
    let repeated = answers(&walks::deliveries(8)).split_off(filling);
    let expected =
        ["refused 18", "refused 19", "refused 17", "refused 15", "refused 16", "ok - +0"];
    for (answer, expected) in repeated.iter().zip(expected.iter().cycle()) {
        assert_eq!(answer, &format!("ST {expected}"));
    }
}

/// Each key comes out of a reply that stands below what the key opens, so that
/// a sweep from above opens a key too late for the same sweep. The reference's
/// order is the other one: it opens what stands above in the same pass.
#[test]
fn keys_are_in_the_worst_order() {
    let (walk, _) = deliveries::filled();
    let terms = &walk.realm.terms;
    let on_wire = |message: &&Message| walk.realm.wire.contains(*message);
    let mut opened = 0;
    for lock in terms.present().iter().filter(on_wire) {
        let Some(key) = lock.encrypted().and_then(|(_, key)| key.session_key()) else { continue };
        let reply = terms.present().iter().filter(on_wire).find(|message| {
            let Some((body, under)) = message.encrypted() else { return false };
            let Some((first, _)) = body.pair() else { return false };
            let bad = under.long_term_key().is_some_and(|p| walk.realm.settings.is_bad(p));
            bad && first.session_key() == Some(key)
        });
        assert!(terms.number(reply.unwrap()) < terms.number(lock));
        opened += 1;
    }
    assert_eq!(opened, 20 + 16, "authenticators and confirmations");
    assert_eq!(sweeps(&walk.realm), 3);
}

/// `deliveries.rs` says why.
#[test]
fn no_file_takes_more_sweeps() {
    let mut most = 0;
    for number in 0..2_000 {
        let file = generator::walk_file(1, number);
        if read_header(&file).is_ok() {
            most = most.max(sweeps(&realm(&file)));
        }
    }
    assert_eq!(most, 3);
}

#[test]
fn deep_terms_are_deep_and_shared() {
    let realm = realm(&walks::deep(0));
    assert_eq!(realm.terms.count(), 512);
    let (mut depth, mut leaves) = (Vec::new(), Vec::new());
    for message in realm.terms.present() {
        let parts = message.pair().or(message.encrypted());
        let (d, l) = match parts {
            None => (1, 1.0),
            Some((one, other)) => {
                let at = |part| usize::from(realm.terms.number(part).unwrap());
                let (one, other) = (at(one), at(other));
                (1 + usize::max(depth[one], depth[other]), leaves[one] + leaves[other])
            }
        };
        depth.push(d);
        leaves.push(l);
    }
    assert!(depth[510] > 250 && depth[511] > 250);
    assert!(leaves[510] > 1e50 && leaves[511] > 1e50, "as trees they are beyond reach");
    let repeated = answers(&walks::deep(8)).split_off(511);
    let half = repeated.len() / 2;
    assert!(count(&repeated, "ST ok - +0").abs_diff(half) <= 1);
    assert!(count(&repeated, "ST refused 15").abs_diff(half) <= 1);
}

#[test]
fn purges_keep_a_full_cache() {
    let (filled, after) = (realm(&walks::purges(0)), realm(&walks::purges(8)));
    assert_eq!((filled.settings.principals, filled.cache.len()), (32, 16));
    let responders: BTreeSet<u8> = filled.cache.iter().map(|entry| entry.responder).collect();
    assert_eq!(responders.len(), 8);
    assert_eq!(after.cache, filled.cache);
    assert_eq!((after.terms.count(), after.runs), (filled.terms.count(), filled.runs));
    assert!(answers(&walks::purges(8)).iter().all(|answer| !answer.contains("refused")));
}

/// On each tick every principal's entries are purged once.
#[test]
fn there_are_32_purges_a_tick() {
    let filling = records(&walks::purges(0)).len();
    let repeated = records(&walks::purges(8)).split_off(filling);
    let mut clock = realm(&walks::purges(0)).clock;
    for tick in repeated.chunks(1 + 32) {
        clock += 1;
        for (number, record) in tick.iter().enumerate() {
            let Record::Step(step) = record else { panic!("{record:?}") };
            let expected = if number == 0 { (7, clock, 0) } else { (8, 0, number - 1) };
            assert_eq!((step.step, step.time, usize::from(step.b)), expected);
        }
    }
    assert!(repeated.len() > 150 * 33, "{}", repeated.len());
}

#[test]
fn damaged_files_are_turned_away_in_every_way() {
    let files = walks::damaged(8);
    assert_eq!(files.len(), walks::DAMAGED_FILES);
    let listings: Vec<String> = files.iter().map(|file| listing(file)).collect();
    for refusal in 1..=3 {
        let end = format!("file refused {refusal}\n");
        let refused = listings.iter().filter(|listing| listing.contains(&end)).count();
        assert!(refused > files.len() / 20, "refusal {refusal}: {refused}");
    }
    let turned_away = listings.iter().filter(|listing| listing.contains("file refused")).count();
    assert!(turned_away > files.len() * 2 / 3, "{turned_away}");
}

#[test]
fn small_files_are_many_and_small() {
    let files = walks::small(8);
    assert_eq!(files.len(), walks::SMALL_FILES);
    assert!(files.iter().all(|file| file.len() <= walks::SMALL_BYTES));
    let records: usize = files.iter().map(|file| lines(file).len()).sum();
    assert!(records > 20 * files.len(), "{records}");
}

/// No record of theirs is turned away by its own fields, so each walk is written
/// as its file.
#[test]
fn long_walks_are_written_as_their_files() {
    for eighths in [1, 8] {
        let files = walks::long(eighths);
        assert_eq!(files.len(), LONG.len());
        for file in files {
            let Walk { header, words } = Walk::of(&file);
            assert_eq!(words.len() / 7 + 2, lines(&file).len());
            assert!(writing::file(&header, &words).unwrap() == file);
        }
    }
}
