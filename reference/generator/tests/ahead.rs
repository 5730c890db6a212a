//! Walks with times from the future: they meet clock + La in every way, and a wrong
//! rule for 22 shows in what they are answered.

mod common;

use common::{files, meets_all};
use generator::ahead::fast_clocks;
use generator::ahead_cells::edges;
use generator::conditions::facts;
use reference::file::{read_header, read_record, Record, StepRecord};
use reference::realm::Realm;

#[test]
fn every_way_is_met() {
    meets_all(fast_clocks, &edges(), 11);
}

/// A delivery's clock, Ls, La and Ta.
type Times = (u32, u32, u32, u32);

/// Is Ta too far ahead?
type Rule = fn(Times) -> bool;

fn right((clock, _, la, ta): Times) -> bool {
    u64::from(clock) + u64::from(la) < u64::from(ta)
}

fn equality_refused((clock, _, la, ta): Times) -> bool {
    u64::from(clock) + u64::from(la) <= u64::from(ta)
}

fn one_tick_more((clock, _, la, ta): Times) -> bool {
    u64::from(clock) + u64::from(la) + 1 < u64::from(ta)
}

fn ticket_life_for_the_authenticators((clock, ls, _, ta): Times) -> bool {
    right((clock, 0, ls, ta))
}

fn any_time_ahead((clock, _, _, ta): Times) -> bool {
    clock < ta
}

fn sum_of_32_bits((clock, _, la, ta): Times) -> bool {
    clock.wrapping_add(la) < ta
}

fn no_rule(_: Times) -> bool {
    false
}

/// Does the rule answer otherwise at a delivery that nothing before 22 bars?
fn shows(file: &[u8], rule: Rule) -> bool {
    let (header, mut rest) = read_header(file).unwrap();
    let settings = header.settings();
    let mut realm = Realm::new(settings);
    while let Some(Ok((record, after))) = read_record(rest) {
        rest = after;
        if let Record::Step(StepRecord { step: 5, .. }) = record {
            let facts = facts(&mut realm, &record);
            let reached = facts.applies.first().is_none_or(|number| *number > 17);
            let ta = facts.read.and_then(|read| read.ta);
            if let (true, Some(ta)) = (reached, ta) {
                let (ls, la) = (settings.ticket_life, settings.authenticator_life);
                let times = (realm.clock, ls, la, ta);
                if rule(times) != right(times) {
                    return true;
                }
            }
        }
        let _ = realm.apply(&record);
    }
    false
}

#[test]
fn wrong_rules_are_found() {
    let wrong: [Rule; 6] = [
        equality_refused,
        one_tick_more,
        ticket_life_for_the_authenticators,
        any_time_ahead,
        sum_of_32_bits,
        no_rule,
    ];
    let found = wrong.map(|rule| files(fast_clocks, 300).filter(|file| shows(file, rule)).count());
    assert!(found.iter().all(|count| *count > 20), "{found:?}");
    assert_eq!(files(fast_clocks, 300).filter(|file| shows(file, right)).count(), 0);
}
