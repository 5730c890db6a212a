//! The tables as a library caller lends them: words of the caller's own, and
//! counts that say how many places are in use. Refusal 10 is settled here, and
//! a call on tables that hold together is the realm's.
//!
//! A term is kind × 2^32 + L × 65,536 + R. A run is seven words: role, stage,
//! a, b, K, Ts, Ta. Mark i of the wire is bit i % 64 of word i / 64.

use crate::file::{Record, Settings, TermRecord};
use crate::marks::MAX_PRINCIPALS;
use crate::realm::{Answer, Entry, Held, Realm, Role, Run, Stage, MAX_ENTRIES, MAX_RUNS};
use crate::refusal::Refusal;
use crate::terms::{Message, Shape, Terms, MAX_NONCE_OR_KEY, MAX_TERMS};

/// The words of a run.
pub const ROW: usize = 7;
/// The full number of places of each table.
pub const TERM_PLACES: usize = MAX_TERMS;
pub const RUN_WORDS: usize = MAX_RUNS * ROW;
pub const WIRE_WORDS: usize = MAX_TERMS / 64;

/// A place of the cache: b, K and Ta.
#[derive(Clone, Copy, Debug, Default, PartialEq, Eq)]
pub struct Place {
    pub b: u16,
    pub k: u16,
    pub ta: u32,
}

/// Puts an entry behind the others, and gives their number: "called alone, both
/// give 10 for a list or count that does not fit, and remember then 18 or 19 as
/// in step 5".
pub fn remember(list: &mut [Place], count: usize, entry: Place) -> Result<usize, Refusal> {
    holds(list.len() == MAX_ENTRIES && count <= MAX_ENTRIES)?;
    if list[..count].contains(&entry) {
        return Err(Refusal::Replayed);
    }
    if count == MAX_ENTRIES {
        return Err(Refusal::CacheFull);
    }
    list[count] = entry;
    Ok(count + 1)
}

/// Forgets b's entries whose Ta + La is at or below the clock, and gives the
/// number of the others: "the kept ones move to the front and the freed places
/// become 0".
pub fn forget(
    list: &mut [Place],
    count: usize,
    b: u16,
    clock: u32,
    life: u32,
) -> Result<usize, Refusal> {
    holds(list.len() == MAX_ENTRIES && count <= MAX_ENTRIES)?;
    let mut kept = list[..count].to_vec();
    kept.retain(|entry| entry.b != b || u64::from(entry.ta) + u64::from(life) > u64::from(clock));
    list[..count].fill(Place::default());
    list[..kept.len()].copy_from_slice(&kept);
    Ok(kept.len())
}

/// How many places of each table are in use.
#[derive(Clone, Copy, Debug, Default, PartialEq, Eq)]
pub struct Counts {
    pub terms: usize,
    pub runs: usize,
    pub entries: usize,
}

#[derive(Clone, Debug, PartialEq, Eq)]
pub struct Tables {
    pub settings: Settings,
    pub clock: u32,
    pub counts: Counts,
    pub terms: Vec<u64>,
    pub runs: Vec<u32>,
    pub wire: Vec<u64>,
    pub cache: Vec<Place>,
}

impl Tables {
    /// "A new hall has clock 0 and empty tables."
    pub fn empty(settings: Settings) -> Tables {
        Tables {
            settings,
            clock: 0,
            counts: Counts::default(),
            terms: vec![0; TERM_PLACES],
            runs: vec![0; RUN_WORDS],
            wire: vec![0; WIRE_WORDS],
            cache: vec![Place::default(); MAX_ENTRIES],
        }
    }

    /// A call, as a TM or an ST record makes it. A refused one leaves every
    /// place as it was.
    pub fn call(&mut self, record: &Record) -> Result<Answer, Refusal> {
        let mut realm = self.realm()?;
        let before = realm.runs.clone();
        let answer = realm.apply(record)?;
        self.store(&realm, &before);
        Ok(answer)
    }

    /// Adds a message with all its parts, or nothing, as a step that sends it
    /// does; its number.
    pub fn add_message(
        &mut self,
        message: impl FnOnce(&mut Realm) -> Result<Message, Refusal>,
    ) -> Result<u16, Refusal> {
        let mut realm = self.realm()?;
        let message = message(&mut realm)?;
        let missing = realm.terms.missing(&[message.clone()]);
        if !realm.terms.has_room_for(missing.len()) {
            return Err(Refusal::TermsFull);
        }
        realm.terms.add(missing);
        let runs = realm.runs.clone();
        self.store(&realm, &runs);
        Ok(number_of(&realm.terms, &message) as u16)
    }

    /// The realm that the tables tell of, or refusal 10.
    pub fn realm(&self) -> Result<Realm, Refusal> {
        holds(
            self.settings.fit(MAX_PRINCIPALS)
                && self.terms.len() == TERM_PLACES
                && self.runs.len() == RUN_WORDS
                && self.wire.len() == WIRE_WORDS
                && self.cache.len() == MAX_ENTRIES
                && self.counts.terms <= MAX_TERMS
                && self.counts.runs <= MAX_RUNS
                && self.counts.entries <= MAX_ENTRIES,
        )?;
        self.settings.rule_set()?;
        let mut realm = Realm::new(self.settings);
        realm.clock = self.clock;
        self.read_terms(&mut realm)?;
        self.read_runs(&mut realm)?;
        self.read_wire(&mut realm)?;
        self.read_cache(&mut realm)?;
        Ok(realm)
    }

    /// Each term, added to those before it, is new: another answer is a broken
    /// rule or a term that stands twice.
    fn read_terms(&self, realm: &mut Realm) -> Result<(), Refusal> {
        for (place, word) in self.terms[..self.counts.terms].iter().enumerate() {
            holds(word >> 32 <= 6)?;
            let added = realm.apply(&Record::Term(term_record(*word)));
            holds(added == Ok(Answer::New(place as u16)))?;
        }
        Ok(())
    }

    fn read_runs(&self, realm: &mut Realm) -> Result<(), Refusal> {
        for (number, row) in self.runs.chunks(ROW).take(self.counts.runs).enumerate() {
            let run = read_run(row, realm.settings.principals)?;
            if run.role == Role::Server {
                let key = realm.terms.make(Shape::SessionKey(number as u8));
                holds(row[4] as usize == number && realm.terms.number(&key).is_some())?;
            }
            realm.runs.push(run);
        }
        Ok(())
    }

    fn read_wire(&self, realm: &mut Realm) -> Result<(), Refusal> {
        for number in 0..MAX_TERMS {
            if self.wire[number / 64] >> (number % 64) & 1 == 1 {
                let message = realm.terms.at(number as u16).ok_or(Refusal::BrokenTables)?;
                realm.wire.insert(message.clone());
            }
        }
        Ok(())
    }

    fn read_cache(&self, realm: &mut Realm) -> Result<(), Refusal> {
        for place in &self.cache[..self.counts.entries] {
            holds(place.b < u16::from(realm.settings.principals))?;
            holds(place.k <= u16::from(MAX_NONCE_OR_KEY))?;
            realm.cache.push(Entry {
                responder: place.b as u8,
                session_key: place.k as u8,
                authenticator_time: place.ta,
            });
        }
        Ok(())
    }

    /// What a call left. Other places keep their values; those of forgotten
    /// entries become 0.
    fn store(&mut self, realm: &Realm, runs_before: &[Run]) {
        self.clock = realm.clock;
        for number in self.counts.terms..realm.terms.count() {
            self.terms[number] = term_word(&realm.terms, &realm.terms.present()[number]);
        }
        for (number, run) in realm.runs.iter().enumerate() {
            if runs_before.get(number) != Some(run) {
                self.runs[number * ROW..][..ROW].copy_from_slice(&run_words(run));
            }
        }
        for message in &realm.wire {
            let number = number_of(&realm.terms, message) as usize;
            self.wire[number / 64] |= 1 << (number % 64);
        }
        self.cache[..self.counts.entries].fill(Place::default());
        for (place, entry) in self.cache.iter_mut().zip(&realm.cache) {
            *place = Place {
                b: entry.responder.into(),
                k: entry.session_key.into(),
                ta: entry.authenticator_time,
            };
        }
        self.counts = Counts {
            terms: realm.terms.count(),
            runs: realm.runs.len(),
            entries: realm.cache.len(),
        };
    }
}

/// A word as a TM record; its kind is one of the paper's.
fn term_record(word: u64) -> TermRecord {
    TermRecord { kind: (word >> 32) as u8, left: (word >> 16) as u16, right: word as u16 }
}

/// The word of a message whose parts are terms.
fn term_word(terms: &Terms, message: &Message) -> u64 {
    let word = |kind: u64, left: u64, right: u64| kind << 32 | left << 16 | right;
    match message.shape() {
        Shape::Principal(p) => word(0, (*p).into(), 0),
        Shape::Time(t) => 1 << 32 | u64::from(*t),
        Shape::Nonce(i) => word(2, (*i).into(), 0),
        Shape::LongTermKey(p) => word(3, (*p).into(), 0),
        Shape::SessionKey(i) => word(4, (*i).into(), 0),
        Shape::Pair(left, right) => word(5, number_of(terms, left), number_of(terms, right)),
        Shape::Encrypted(body, key) => word(6, number_of(terms, body), number_of(terms, key)),
    }
}

fn number_of(terms: &Terms, message: &Message) -> u64 {
    terms.number(message).expect("parts of terms, and what is on the wire, are terms").into()
}

/// "a run with an unknown role, a stage its role lacks, a or b as barred by 6,
/// or K above 95"
fn read_run(row: &[u32], n: u8) -> Result<Run, Refusal> {
    let [role, stage, a, b, k, ts, ta] = *row else { return Err(Refusal::BrokenTables) };
    let (role, stage) = match (role, stage) {
        (1, 1) => (Role::Initiator, Stage::Opened),
        (1, 2) => (Role::Initiator, Stage::AfterStep4),
        (1, 3) => (Role::Initiator, Stage::Done),
        (2, 1) => (Role::Responder, Stage::Opened),
        (2, 3) => (Role::Responder, Stage::Done),
        (3, 3) => (Role::Server, Stage::Done),
        _ => return Err(Refusal::BrokenTables),
    };
    holds(a != 0 && b != 0 && a != b && a < n.into() && b < n.into())?;
    holds(k <= MAX_NONCE_OR_KEY.into())?;
    let held = Held {
        session_key: k as u8,
        ticket_time: ts,
        authenticator_time: (role != Role::Server).then_some(ta),
    };
    let held = (stage != Stage::Opened).then_some(held);
    Ok(Run { role, a: a as u8, b: b as u8, stage, held })
}

/// "one not yet taken is stored as 0"
fn run_words(run: &Run) -> [u32; ROW] {
    let role = match run.role {
        Role::Initiator => 1,
        Role::Responder => 2,
        Role::Server => 3,
    };
    let stage = match run.stage {
        Stage::Opened => 1,
        Stage::AfterStep4 => 2,
        Stage::Done => 3,
    };
    let (k, ts, ta) = match run.held {
        Some(held) => {
            (held.session_key.into(), held.ticket_time, held.authenticator_time.unwrap_or(0))
        }
        None => (0, 0, 0),
    };
    [role, stage, run.a.into(), run.b.into(), k, ts, ta]
}

fn holds(condition: bool) -> Result<(), Refusal> {
    condition.then_some(()).ok_or(Refusal::BrokenTables)
}
