//! The cells of times from the future: how a delivery's Ta lies to the clock,
//! where it is taken and where it gets 22.

use reference::realm::Realm;

use crate::conditions::Facts;

/// The times of a delivery, and the lives that it is held against.
struct Times {
    clock: u64,
    ls: u64,
    la: u64,
    ta: u64,
}

const HIGHEST: u64 = u32::MAX as u64;

impl Times {
    fn at_the_end(&self) -> bool {
        self.ta == self.clock + self.la
    }

    fn one_past(&self) -> bool {
        self.ta == self.clock + self.la + 1
    }

    /// A sum of 32 bits would be below Ta.
    fn past_32_bits(&self) -> bool {
        let sum = self.clock + self.la;
        sum > HIGHEST && sum - (HIGHEST + 1) < self.ta
    }
}

type Way = (&'static str, fn(&Times) -> bool);

const TAKEN: [Way; 7] = [
    ("Ta above the clock", |t| t.ta > t.clock),
    ("Ta is clock + La", Times::at_the_end),
    ("Ta is clock + La, the clock is 0", |t| t.at_the_end() && t.clock == 0),
    ("Ta is clock + La, the highest time", |t| t.at_the_end() && t.ta == HIGHEST),
    ("Ta above clock + Ls", |t| t.ta > t.clock + t.ls),
    ("Ta is 0, clock - La below 0", |t| t.ta == 0 && t.clock < t.la),
    ("clock + La past 32 bits", Times::past_32_bits),
];

const AHEAD: [Way; 4] = [
    ("one tick past clock + La", Times::one_past),
    ("one tick past clock + La, the clock is 0", |t| t.one_past() && t.clock == 0),
    ("one tick past clock + La, the highest time", |t| t.one_past() && t.ta == HIGHEST),
    ("Ta at most clock + Ls", |t| t.ta <= t.clock + t.ls),
];

pub fn edges() -> Vec<String> {
    let taken = TAKEN.iter().map(|(way, _)| format!("step 5 / ok / {way}"));
    let ahead = AHEAD.iter().map(|(way, _)| format!("step 5 / refused 22 / {way}"));
    taken.chain(ahead).collect()
}

/// The cells of a step 5 on the tables as it finds them.
pub fn cells(realm: &Realm, facts: &Facts) -> Vec<String> {
    let (ways, answer): (&[Way], _) = match facts.applies.first() {
        None => (&TAKEN, "ok"),
        Some(22) => (&AHEAD, "refused 22"),
        _ => return Vec::new(),
    };
    let Some(ta) = facts.read.and_then(|read| read.ta) else { return Vec::new() };
    let times = Times {
        clock: realm.clock.into(),
        ls: realm.settings.ticket_life.into(),
        la: realm.settings.authenticator_life.into(),
        ta: ta.into(),
    };
    let met = ways.iter().filter(|(_, met)| met(&times));
    met.map(|(way, _)| format!("step 5 / {answer} / {way}")).collect()
}
