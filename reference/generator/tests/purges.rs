//! Walks with purges at every tick: they meet the cache in every way, and a pass
//! over it that forgets wrongly shows in what they are answered.

mod common;

use common::{files, meets_all};
use generator::purge_cells::{edges, ways};
use generator::purges::each_tick;
use reference::file::{read_header, read_record, Record, StepRecord};
use reference::realm::{Entry, Realm};

#[test]
fn every_way_is_met() {
    meets_all(each_tick, &edges(), 14);
}

#[test]
fn ways_are_told_by_which_entries_go() {
    let (stays, behind) = (false, "an entry stays right behind one that goes");
    let (goes, between) = (true, "an entry stays between two that go");
    assert_eq!(ways(&[]), ["an empty cache"]);
    assert_eq!(ways(&[stays, stays]), [""; 0]);
    assert_eq!(ways(&[goes]), [""; 0], "there is but one");
    assert_eq!(ways(&[goes, stays]), [behind, "the first of several goes alone"]);
    assert_eq!(ways(&[stays, stays, goes]), ["the last of several goes alone"]);
    assert_eq!(ways(&[goes, goes]), ["an entry goes right behind one that goes"]);
    assert_eq!(ways(&[goes, stays, goes]), [behind, between]);
    assert_eq!(
        ways(&[goes, stays, stays, goes]),
        [behind, "two entries stay behind one that goes"]
    );
    let full = |first: bool, others: bool| {
        let mut full = [others; 16];
        full[0] = first;
        ways(&full).last().copied()
    };
    assert_eq!(full(goes, goes), Some("every entry of a full cache goes"));
    assert_eq!(full(stays, goes), Some("some entries of a full cache go"));
    assert_eq!(full(stays, stays), Some("no entry of a full cache goes"));
}

/// What a purge leaves of the entries, each with whether it should go.
type Pass = fn(&[(Entry, bool)]) -> Vec<Entry>;

fn right(list: &[(Entry, bool)]) -> Vec<Entry> {
    list.iter().filter(|(_, goes)| !goes).map(|(entry, _)| *entry).collect()
}

/// Does not look at the entry that moves to the place of one that goes.
fn skipping(list: &[(Entry, bool)]) -> Vec<Entry> {
    let (mut list, mut at) = (list.to_vec(), 0);
    while at < list.len() {
        if list[at].1 {
            list.remove(at);
        }
        at += 1;
    }
    list.into_iter().map(|(entry, _)| entry).collect()
}

/// Ends at the first entry that goes.
fn one_only(list: &[(Entry, bool)]) -> Vec<Entry> {
    let first = list.iter().position(|(_, goes)| *goes);
    let others = list.iter().enumerate().filter(|(at, _)| Some(*at) != first);
    others.map(|(_, (entry, _))| *entry).collect()
}

/// Does not look at the last entry.
fn but_the_last(list: &[(Entry, bool)]) -> Vec<Entry> {
    let Some((last, others)) = list.split_last() else { return Vec::new() };
    [right(others), vec![last.0]].concat()
}

/// Counts the entries that stay, and leaves the first ones in their places.
fn unmoved(list: &[(Entry, bool)]) -> Vec<Entry> {
    list[..right(list).len()].iter().map(|(entry, _)| *entry).collect()
}

/// Drops an entry that stays right behind one that goes.
fn dropping(list: &[(Entry, bool)]) -> Vec<Entry> {
    let after_one = |at: usize| at > 0 && list[at - 1].1;
    let left = list.iter().enumerate().filter(|(at, (_, goes))| !goes && !after_one(*at));
    left.map(|(_, (entry, _))| *entry).collect()
}

/// What a listing tells, the answers and the number of entries at the end, if
/// purges leave what the pass does.
fn told(file: &[u8], pass: Pass) -> Vec<String> {
    let (header, mut rest) = read_header(file).unwrap();
    let mut realm = Realm::new(header.settings());
    let mut told = Vec::new();
    while let Some(Ok((record, after))) = read_record(rest) {
        rest = after;
        let before = realm.cache.clone();
        let answer = realm.apply(&record);
        if matches!(record, Record::Step(StepRecord { step: 8, .. })) {
            let goes = |entry: &Entry| !realm.cache.contains(entry);
            let list: Vec<_> = before.iter().map(|entry| (*entry, goes(entry))).collect();
            realm.cache = pass(&list);
        }
        told.push(format!("{answer:?}"));
    }
    told.push(format!("{} entries", realm.cache.len()));
    told
}

#[test]
fn wrong_passes_are_found() {
    let wrong: [Pass; 5] = [skipping, one_only, but_the_last, unmoved, dropping];
    let found = wrong.map(|pass| {
        files(each_tick, 300).filter(|file| told(file, pass) != told(file, right)).count()
    });
    assert!(found.iter().all(|count| *count > 20), "{found:?}");
}
