//! Messages that are asked for again: generated walks meet every way, and an
//! answer that is kept too long shows.

use generator::asked_cells::{edges, Asked, Questions};
use generator::conditions::facts;
use generator::coverage::Tally;
use generator::walk_file;
use reference::file::{read_header, read_record, Record};
use reference::realm::Realm;

const SEED: u64 = 1;
const FILES: u64 = 2_000;

#[test]
fn every_way_is_met() {
    let mut tally = Tally::default();
    (0..FILES).for_each(|number| tally.add(&walk_file(SEED, number)));
    let counts: Vec<(String, u64)> =
        edges().into_iter().map(|cell| (cell.clone(), tally.count(&cell))).collect();
    assert!(counts.iter().all(|(_, count)| *count >= 20), "{counts:?}");
    assert_eq!(counts.len(), 7);
}

/// Is an answer of before still taken?
type Keeping = fn(Asked, Asked) -> bool;

fn while_nothing_new_is_sent(then: Asked, now: Asked) -> bool {
    then.wire == now.wire
}

fn until_terms_are_added(then: Asked, now: Asked) -> bool {
    then.terms == now.terms
}

fn for_ever(_: Asked, _: Asked) -> bool {
    true
}

/// Does an answer that is kept so differ from the one that is due?
fn shows(file: &[u8], keeping: Keeping) -> bool {
    let Ok((header, mut rest)) = read_header(file) else { return false };
    let mut realm = Realm::new(header.settings());
    let mut questions = Questions::default();
    while let Some(Ok((record, after))) = read_record(rest) {
        rest = after;
        if let Record::Step(step) = &record {
            let facts = facts(&mut realm, &record);
            if let Some((then, now)) = questions.ask(&realm, step, &facts) {
                if keeping(then, now) && then.derivable != now.derivable {
                    return true;
                }
            }
        }
        let _ = realm.apply(&record);
    }
    false
}

#[test]
fn answers_kept_too_long_are_found() {
    let count = |keeping: Keeping| {
        (0..FILES).filter(|number| shows(&walk_file(SEED, *number), keeping)).count()
    };
    assert_eq!(count(while_nothing_new_is_sent), 0);
    let found = [until_terms_are_added, for_ever].map(|keeping: Keeping| count(keeping));
    assert!(found.iter().all(|count| *count >= 10), "{found:?}");
}
