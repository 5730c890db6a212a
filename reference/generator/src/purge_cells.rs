//! The cells of purges: which entries go and which stay, by their places in the
//! cache, and what later records find there.

use reference::file::StepRecord;
use reference::realm::{Entry, Realm, MAX_ENTRIES};

use crate::conditions::Facts;

/// A way in which a purge meets the cache, told by which entries go.
type Way = (&'static str, fn(&[bool]) -> bool);

const WAYS: [Way; 10] = [
    ("an empty cache", |goes| goes.is_empty()),
    ("an entry stays right behind one that goes", |goes| has(goes, &[true, false])),
    ("an entry goes right behind one that goes", |goes| has(goes, &[true, true])),
    ("an entry stays between two that go", |goes| has(goes, &[true, false, true])),
    ("two entries stay behind one that goes", |goes| has(goes, &[true, false, false])),
    ("the first of several goes alone", |goes| {
        goes.len() > 1 && goes[0] && !goes[1..].contains(&true)
    }),
    ("the last of several goes alone", |goes| {
        goes.len() > 1 && goes.iter().position(|goes| *goes) == Some(goes.len() - 1)
    }),
    ("every entry of a full cache goes", |goes| full(goes) && !goes.contains(&false)),
    ("some entries of a full cache go", |goes| {
        full(goes) && goes.contains(&true) && goes.contains(&false)
    }),
    ("no entry of a full cache goes", |goes| full(goes) && !goes.contains(&true)),
];

const EVERY_PRINCIPAL: &str = "step 8 / ok / every principal at one tick";
const SECOND_PRINCIPAL: &str = "step 8 / ok / entries of a second principal go at one tick";
const FREED_PLACE: &str = "step 5 / ok / a place freed in a full cache";
const MOVED_ENTRY: &str = "step 5 / refused 18 / by an entry that a purge moved";

fn has(goes: &[bool], pattern: &[bool]) -> bool {
    goes.windows(pattern.len()).any(|window| window == pattern)
}

fn full(goes: &[bool]) -> bool {
    goes.len() == MAX_ENTRIES
}

/// The ways in which a purge meets the cache, if these entries go.
pub fn ways(goes: &[bool]) -> Vec<&'static str> {
    WAYS.into_iter().filter(|(_, met)| met(goes)).map(|(way, _)| way).collect()
}

pub fn edges() -> Vec<String> {
    let ways = WAYS.iter().map(|(way, _)| format!("step 8 / ok / {way}"));
    let others = [EVERY_PRINCIPAL, SECOND_PRINCIPAL, FREED_PLACE, MOVED_ENTRY];
    ways.chain(others.map(String::from)).collect()
}

/// What the purges of a walk have done so far. Principals are a bit each.
#[derive(Default)]
pub struct Purges {
    clock: u32,
    /// Who purged at this clock.
    purged: u64,
    /// Whose entries went at this clock.
    freed: u64,
    /// Entries that moved to the front.
    moved: Vec<Entry>,
    /// Some entries of a full cache went, and some stayed.
    freed_in_full: bool,
}

impl Purges {
    /// The cells of a step on the tables as it finds them.
    pub fn cells(&mut self, realm: &Realm, record: &StepRecord, facts: &Facts) -> Vec<String> {
        match (record.step, facts.applies.first()) {
            (8, None) => self.purge(realm, record.b),
            (5, None) if self.freed_in_full => vec![FREED_PLACE.into()],
            (5, Some(18)) if self.has_moved(facts) => vec![MOVED_ENTRY.into()],
            _ => Vec::new(),
        }
    }

    fn purge(&mut self, realm: &Realm, b: u8) -> Vec<String> {
        if realm.clock != self.clock {
            (self.clock, self.purged, self.freed) = (realm.clock, 0, 0);
        }
        let goes: Vec<bool> = realm.cache.iter().map(|entry| goes(realm, entry, b)).collect();
        let mut cells: Vec<String> =
            ways(&goes).iter().map(|way| format!("step 8 / ok / {way}")).collect();
        self.purged |= 1 << b;
        if self.purged == (1 << realm.settings.principals) - 1 {
            cells.push(EVERY_PRINCIPAL.into());
        }
        let Some(first) = goes.iter().position(|goes| *goes) else { return cells };
        if self.freed & !(1 << b) != 0 {
            cells.push(SECOND_PRINCIPAL.into());
        }
        self.freed |= 1 << b;
        self.freed_in_full |= full(&goes) && goes.contains(&false);
        let behind = realm.cache.iter().zip(&goes).skip(first);
        self.moved.extend(behind.filter(|(_, goes)| !**goes).map(|(entry, _)| *entry));
        cells
    }

    /// Has a purge moved the entry of this delivery?
    fn has_moved(&self, facts: &Facts) -> bool {
        let Some(read) = facts.read else { return false };
        self.moved.iter().any(|entry| {
            let Entry { responder, session_key, authenticator_time } = *entry;
            (responder, session_key, Some(authenticator_time)) == (read.b, read.key, read.ta)
        })
    }
}

/// The entries that a purge leaves, in their order.
pub fn left(realm: &Realm, entries: &[Entry], b: u8) -> Vec<Entry> {
    entries.iter().filter(|entry| !goes(realm, entry, b)).copied().collect()
}

/// "forgets b's entries whose Ta + La is at or below the clock"
fn goes(realm: &Realm, entry: &Entry, b: u8) -> bool {
    let life = u64::from(realm.settings.authenticator_life);
    entry.responder == b && u64::from(entry.authenticator_time) + life <= u64::from(realm.clock)
}
