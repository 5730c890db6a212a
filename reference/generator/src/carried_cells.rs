//! The cells of document 02's "Tickets carried by the panel": what steps 3 and 4 do
//! by the rule set, what X is, and what comes of the pair that step 4 sends. Each
//! group has the sentence of the paper that it is of.

use reference::file::StepRecord;
use reference::realm::Realm;
use reference::rules::Rules;
use reference::terms::{Message, Shape};

use crate::cells::{most_added, refusals_of_step};
use crate::conditions::{Facts, Read};
use crate::forms;

/// The two sets that the paper adds.
const ADDED: [Rules; 2] = [Rules::Beside, Rules::Within];

/// A mark of the rule set.
fn name(rules: Rules) -> &'static str {
    match rules {
        Rules::Apart => "HD",
        Rules::Beside => "H5",
        Rules::Within => "H4",
    }
}

/// What stands before the way of a cell that is told by the rule set: nothing for the
/// old one.
pub fn under(rules: Rules) -> String {
    match rules {
        Rules::Apart => String::new(),
        _ => format!("{}, ", name(rules)),
    }
}

/// What a step 4 finds.
struct Taken<'a> {
    realm: &'a Realm,
    message: &'a Message,
    part: &'a Message,
    x: &'a Message,
    read: Read,
}

impl Taken<'_> {
    /// X is what the server makes with the K and Ts of the part.
    fn x_is_the_ticket(&self) -> bool {
        let Read { a, b, key, ts, .. } = self.read;
        forms::fits(&forms::ticket([Some(key.into()), Some(a.into()), ts, Some(b.into())]), self.x)
    }

    fn x_is_a_ticket(&self) -> bool {
        forms::fits(&forms::ticket([None; 4]), self.x)
    }

    fn m_came(&self) -> bool {
        self.realm.wire.contains(self.message)
    }
}

/// Came on the wire, alone or as half of a pair.
pub fn came(realm: &Realm, message: &Message) -> bool {
    let is_half = |(left, right): (&Message, &Message)| left == message || right == message;
    realm.wire.contains(message) || realm.wire.iter().filter_map(Message::pair).any(is_half)
}

type Way = (&'static str, fn(&Taken) -> bool);

/// "step 4 takes a pair of the panel's part and any term X", and "takes any X from
/// the last place of that part".
const ANY_X: [Way; 6] = [
    ("X is the ticket", |t| t.x_is_the_ticket()),
    ("X is another ticket", |t| t.x_is_a_ticket() && !t.x_is_the_ticket()),
    ("X is another lock", |t| matches!(t.x.shape(), Shape::Encrypted(..)) && !t.x_is_a_ticket()),
    ("X is a pair", |t| matches!(t.x.shape(), Shape::Pair(..))),
    ("X is no lock and no pair", |t| forms::atom(t.x).is_some()),
    ("a part made by the intruder", |t| !t.m_came() && !came(t.realm, t.part)),
];

/// Under H5 alone: the two halves are apart.
const ANY_X_BESIDE: [Way; 2] = [
    ("a part that came, joined anew", |t| !t.m_came() && came(t.realm, t.part)),
    ("X is the part itself", |t| t.x == t.part),
];

/// Under H4 alone: nobody but a sees what is in its part.
const ANY_X_WITHIN: [Way; 1] = [("X not derivable alone", |t| !t.realm.derivable().contains(t.x))];

fn any_x(rules: Rules) -> Vec<Way> {
    let own: &[Way] = if rules == Rules::Beside { &ANY_X_BESIDE } else { &ANY_X_WITHIN };
    ANY_X.iter().chain(own).copied().collect()
}

/// "and sends the pair of X and {a, Ta}K": that pair as it came, or the authenticator
/// out of one with another X.
const DELIVERIES: [(&str, &str, bool); 4] = [
    ("ok", "the pair that came", true),
    ("ok", "the authenticator that came, joined anew", false),
    ("refused 14", "the pair that came", true),
    ("refused 18", "the pair that came", true),
];

pub fn edges() -> Vec<String> {
    let mut cells = Vec::new();
    for rules in ADDED {
        let set = name(rules);
        // "The other steps follow document 01."
        cells.extend((1..=10).map(|step| format!("step {step} / ok / {set}")));
        for step in 3..=6 {
            let of_state = refusals_of_step(step).iter().filter(|refusal| **refusal > 10);
            cells
                .extend(of_state.map(|refusal| format!("step {step} / refused {refusal} / {set}")));
        }
        // "step 3 sends one pair of the panel's part and the ticket", "the ticket is
        // not sent apart"
        for step in [3, 4] {
            let adds = 0..=most_added(step, rules);
            cells.extend(adds.map(|added| format!("step {step} / ok / {set}, adds {added}")));
        }
        let misfits = forms::possible_misfits(&forms::reply(rules, 1, 2, 0), "");
        cells.extend(misfits.iter().map(|how| format!("step 4 / refused 14 / {set}, {how}")));
        cells.extend(any_x(rules).iter().map(|(way, _)| format!("step 4 / ok / {set}, {way}")));
        let deliveries = DELIVERIES.iter();
        cells
            .extend(deliveries.map(|(answer, way, _)| format!("step 5 / {answer} / {set}, {way}")));
    }
    cells.push("step 4 / refused 15 / H5, X alone not derivable".into());
    // "keep the old one under HD and HW"
    for rules in Rules::ALL {
        let others = Rules::ALL.into_iter().filter(|other| *other != rules);
        cells.extend(others.map(|other| confused(rules, other)));
    }
    cells
}

fn confused(rules: Rules, other: Rules) -> String {
    format!("step 4 / refused 14 / {}, the form of {}", name(rules), name(other))
}

/// The cells of a step on the tables as it finds them.
pub fn cells(realm: &Realm, record: &StepRecord, facts: &Facts) -> Vec<String> {
    let rules = forms::rules(realm);
    let (step, refusal) = (record.step, facts.applies.first().copied());
    let mut cells = Vec::new();
    if let (4, Some(14), Some(message)) = (step, refusal, &facts.message) {
        cells.extend(confusions(realm, rules, record.run, message));
    }
    if rules == Rules::Apart {
        return cells;
    }
    let set = name(rules);
    let answer = refusal.map_or("ok".to_string(), |number| format!("refused {number}"));
    cells.push(format!("step {step} / {answer} / {set}"));
    let Some(message) = &facts.message else { return cells };
    match step {
        4 => cells.extend(taken(realm, rules, message, facts)),
        5 => {
            let on_wire = realm.wire.contains(message);
            let half = message.pair().is_some_and(|(_, authenticator)| came(realm, authenticator));
            let met = DELIVERIES.iter().filter(|(given, _, whole)| {
                *given == answer && *whole == on_wire && (*whole || half)
            });
            cells.extend(met.map(|(answer, way, _)| format!("step 5 / {answer} / {set}, {way}")));
        }
        _ => {}
    }
    cells
}

/// The form of another set that m has.
fn confusions(realm: &Realm, rules: Rules, run: u8, message: &Message) -> Vec<String> {
    let Some(found) = realm.runs.get(usize::from(run)) else { return Vec::new() };
    let others = Rules::ALL.into_iter().filter(|other| {
        let form = forms::reply(*other, found.a, found.b, run);
        *other != rules && forms::fits(&form, message)
    });
    others.map(|other| confused(rules, other)).collect()
}

fn taken(realm: &Realm, rules: Rules, message: &Message, facts: &Facts) -> Vec<String> {
    let (part, x) = forms::places(rules);
    let x = x.and_then(|place| forms::part(message, place));
    let (Some(part), Some(x), Some(read)) = (forms::part(message, part), x, facts.read) else {
        return Vec::new();
    };
    let set = name(rules);
    match facts.applies.first() {
        None => {
            let taken = Taken { realm, message, part, x, read };
            let met = any_x(rules).into_iter().filter(|(_, met)| met(&taken));
            met.map(|(way, _)| format!("step 4 / ok / {set}, {way}")).collect()
        }
        Some(15) if rules == Rules::Beside && realm.derivable().contains(part) => {
            vec!["step 4 / refused 15 / H5, X alone not derivable".into()]
        }
        _ => Vec::new(),
    }
}
