//! The cells of questions that come again: whether the intruder can build a
//! message that was asked for before, by what was sent and added since.

use std::collections::HashMap;

use reference::file::StepRecord;
use reference::realm::Realm;

use crate::conditions::Facts;

/// An answer to whether m can be built, and how much was on the wire and in the
/// table of terms then.
#[derive(Clone, Copy)]
pub struct Asked {
    pub derivable: bool,
    pub wire: usize,
    pub terms: usize,
}

impl Asked {
    fn on_the_wire_of(self, then: Asked) -> bool {
        self.wire == then.wire
    }
}

/// The answer of before, and that of now.
type Way = (&'static str, fn(Asked, Asked) -> bool);

const WAYS: [Way; 7] = [
    ("yes / as before, nothing sent or added", |then, now| {
        now.derivable && then.derivable && now.on_the_wire_of(then) && now.terms == then.terms
    }),
    ("yes / as before, terms added", |then, now| {
        now.derivable && then.derivable && now.on_the_wire_of(then) && now.terms > then.terms
    }),
    ("yes / as before, more on the wire", |then, now| {
        now.derivable && then.derivable && !now.on_the_wire_of(then)
    }),
    ("yes / no before", |then, now| now.derivable && !then.derivable),
    ("no / as before, nothing sent or added", |then, now| {
        !now.derivable && now.on_the_wire_of(then) && now.terms == then.terms
    }),
    ("no / as before, terms added", |then, now| {
        !now.derivable && now.on_the_wire_of(then) && now.terms > then.terms
    }),
    ("no / as before, more on the wire", |then, now| !now.derivable && !now.on_the_wire_of(then)),
];

pub fn edges() -> Vec<String> {
    WAYS.iter().map(|(way, _)| format!("m asked for again / {way}")).collect()
}

/// The question that a step puts on the tables as it finds them, if nothing
/// before 15 bars it.
pub fn asked(realm: &Realm, record: &StepRecord, facts: &Facts) -> Option<Asked> {
    let reached = facts.applies.first().is_none_or(|number| *number >= 15);
    let takes_a_message = matches!(record.step, 3..=6 | 10);
    (takes_a_message && reached).then(|| Asked {
        derivable: facts.derivable,
        wire: realm.wire.len(),
        terms: realm.terms.count(),
    })
}

/// The last answer on each m of a walk.
#[derive(Default)]
pub struct Questions(HashMap<u16, Asked>);

impl Questions {
    /// The question that a step puts, with the answer of before if there is one.
    pub fn ask(
        &mut self,
        realm: &Realm,
        record: &StepRecord,
        facts: &Facts,
    ) -> Option<(Asked, Asked)> {
        let now = asked(realm, record, facts)?;
        let then = self.0.insert(record.message, now)?;
        Some((then, now))
    }

    /// The cells of a step on the tables as it finds them.
    pub fn cells(&mut self, realm: &Realm, record: &StepRecord, facts: &Facts) -> Vec<String> {
        let Some((then, now)) = self.ask(realm, record, facts) else { return Vec::new() };
        let met = WAYS.iter().filter(|(_, met)| met(then, now));
        met.map(|(way, _)| format!("m asked for again / {way}")).collect()
    }
}
