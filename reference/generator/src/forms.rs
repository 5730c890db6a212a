//! The forms of the messages that steps 3 to 6 take, as patterns.
//!
//! The reference reads a message with nested code; here the same forms are
//! written as data. So they can be filled in, filled in with one part wrong, and
//! asked which parts of a message do not fit.

use reference::realm::Realm;
use reference::rules::Rules;
use reference::terms::{Message, Shape};

#[derive(Clone, Copy, Debug, PartialEq, Eq)]
pub enum Kind {
    Principal,
    Time,
    Nonce,
    LongTermKey,
    SessionKey,
}

/// An atom has a kind and, if the step fixes it, a value.
#[derive(Clone, Debug)]
pub enum Pattern {
    /// Any term: document 02's X.
    Any,
    Atom(Kind, Option<u32>),
    Pair(Box<Pattern>, Box<Pattern>),
    Lock(Box<Pattern>, Box<Pattern>),
}

use Kind::*;
use Pattern::{Any, Atom};

fn list(parts: &[Pattern]) -> Pattern {
    let (first, rest) = parts.split_first().expect("a list is not empty");
    if rest.is_empty() {
        return first.clone();
    }
    Pattern::Pair(Box::new(first.clone()), Box::new(list(rest)))
}

fn lock(body: Pattern, key: Pattern) -> Pattern {
    Pattern::Lock(Box::new(body), Box::new(key))
}

fn fixed(kind: Kind, value: u8) -> Pattern {
    Atom(kind, Some(u32::from(value)))
}

/// Step 3; that a and b are unequal and not 0 is asked apart.
pub fn request() -> Pattern {
    list(&[Atom(Principal, None), Atom(Principal, None), Atom(Nonce, None)])
}

/// Step 4: the initiator's part, the pair of it and X, or the part with X in its
/// last place.
pub fn reply(rules: Rules, a: u8, b: u8, own_nonce: u8) -> Pattern {
    let mut body = vec![
        Atom(SessionKey, None),
        fixed(Principal, b),
        Atom(Time, None),
        fixed(Nonce, own_nonce),
    ];
    if rules == Rules::Within {
        body.push(Any);
    }
    let part = lock(list(&body), fixed(LongTermKey, a));
    match rules {
        Rules::Beside => list(&[part, Any]),
        _ => part,
    }
}

/// The places of the initiator's part and of X in the reply.
pub fn places(rules: Rules) -> (&'static str, Option<&'static str>) {
    match rules {
        Rules::Apart => ("", None),
        Rules::Beside => ("L", Some("R")),
        Rules::Within => ("", Some("BRRRR")),
    }
}

/// A ticket with these of K, a, Ts and b.
pub fn ticket([key, a, ts, b]: [Option<u32>; 4]) -> Pattern {
    lock(list(&[Atom(SessionKey, key), Atom(Principal, a), Atom(Time, ts)]), Atom(LongTermKey, b))
}

/// Step 5, with the K that the ticket holds if it is known.
pub fn delivery(a: u8, b: u8, key: Option<u32>) -> Pattern {
    let ticket = ticket([key, Some(a.into()), None, Some(b.into())]);
    let authenticator = list(&[fixed(Principal, a), Atom(Time, None)]);
    list(&[ticket, lock(authenticator, Atom(SessionKey, key))])
}

pub fn answer(key: u8, ta: u32) -> Pattern {
    lock(Atom(Time, Some(ta)), fixed(SessionKey, key))
}

/// The form of m at steps 3 to 6 in this run; step 6 has none in a run that
/// holds no K and Ta. Only the key of step 5 depends on m itself.
pub fn form(realm: &Realm, step: u8, number: u8, key: Option<u32>) -> Option<Pattern> {
    if step == 3 {
        return Some(request());
    }
    let run = realm.runs.get(usize::from(number))?;
    match step {
        4 => Some(reply(rules(realm), run.a, run.b, number)),
        5 => Some(delivery(run.a, run.b, key)),
        6 => run.held.and_then(|h| Some(answer(h.session_key, h.authenticator_time?))),
        _ => None,
    }
}

/// The rule set of a realm.
pub fn rules(realm: &Realm) -> Rules {
    realm.settings.rule_set().expect("a realm of a file has a rule set")
}

pub fn atom(message: &Message) -> Option<(Kind, u32)> {
    Some(match *message.shape() {
        Shape::Principal(p) => (Principal, u32::from(p)),
        Shape::Time(t) => (Time, t),
        Shape::Nonce(i) => (Nonce, u32::from(i)),
        Shape::LongTermKey(p) => (LongTermKey, u32::from(p)),
        Shape::SessionKey(i) => (SessionKey, u32::from(i)),
        _ => return None,
    })
}

pub fn shape(kind: Kind, value: u32) -> Shape {
    match kind {
        Principal => Shape::Principal(value as u8),
        Time => Shape::Time(value),
        Nonce => Shape::Nonce(value as u8),
        LongTermKey => Shape::LongTermKey(value as u8),
        SessionKey => Shape::SessionKey(value as u8),
    }
}

/// The part at a place: L and R are the halves of a pair, B and K the body and
/// the key of a lock.
pub fn part<'a>(message: &'a Message, place: &str) -> Option<&'a Message> {
    place.chars().try_fold(message, |message, turn| match turn {
        'L' => message.pair().map(|p| p.0),
        'R' => message.pair().map(|p| p.1),
        'B' => message.encrypted().map(|p| p.0),
        _ => message.encrypted().map(|p| p.1),
    })
}

/// The value of an atom of this kind at a place.
pub fn value(message: &Message, place: &str, kind: Kind) -> Option<u32> {
    let (found, value) = atom(part(message, place)?)?;
    (found == kind).then_some(value)
}

/// The parts that do not fit, from the outside in: their places and how. Below
/// a part that is no pair or no lock nothing is looked at.
pub fn misfits(pattern: &Pattern, message: &Message, place: &str) -> Vec<String> {
    let both = |parts: Option<(&Message, &Message)>,
                first: (&Pattern, char),
                second: (&Pattern, char),
                lacking: &str| {
        let Some((one, other)) = parts else { return vec![format!("m{place} {lacking}")] };
        let mut found = misfits(first.0, one, &format!("{place}{}", first.1));
        found.extend(misfits(second.0, other, &format!("{place}{}", second.1)));
        found
    };
    match pattern {
        Any => vec![],
        Atom(kind, fixed) => match (atom(message), fixed) {
            (Some((found, value)), Some(wanted)) if found == *kind && value != *wanted => {
                vec![format!("m{place} another value")]
            }
            (Some((found, _)), _) if found == *kind => vec![],
            _ => vec![format!("m{place} another kind")],
        },
        Pattern::Pair(left, right) => both(message.pair(), (left, 'L'), (right, 'R'), "no pair"),
        Pattern::Lock(body, key) => both(message.encrypted(), (body, 'B'), (key, 'K'), "no lock"),
    }
}

/// Does the message have the form?
pub fn fits(pattern: &Pattern, message: &Message) -> bool {
    misfits(pattern, message, "").is_empty()
}

/// All that `misfits` can find with a pattern.
pub fn possible_misfits(pattern: &Pattern, place: &str) -> Vec<String> {
    let both = |first: &Pattern, turn, second: &Pattern, other, name: &str| {
        let mut all = vec![format!("m{place} {name}")];
        all.extend(possible_misfits(first, &format!("{place}{turn}")));
        all.extend(possible_misfits(second, &format!("{place}{other}")));
        all
    };
    match pattern {
        Any => vec![],
        Atom(_, None) => vec![format!("m{place} another kind")],
        Atom(_, Some(_)) => {
            vec![format!("m{place} another kind"), format!("m{place} another value")]
        }
        Pattern::Pair(left, right) => both(left, 'L', right, 'R', "no pair"),
        Pattern::Lock(body, key) => both(body, 'B', key, 'K', "no lock"),
    }
}

/// What an accepted step would send, given what its m holds.
pub struct Sends {
    pub a: u8,
    pub b: u8,
    pub nonce: u8,
    pub key: u8,
    pub ta: u32,
    pub x: Option<Message>,
}

impl Sends {
    pub fn messages(&self, realm: &mut Realm, step: u8) -> Vec<Message> {
        let rules = rules(realm);
        let clock = Shape::Time(realm.clock);
        let (a, b) = (Shape::Principal(self.a), Shape::Principal(self.b));
        let (key, nonce) = (Shape::SessionKey(self.key), Shape::Nonce(self.nonce));
        let next_key = Shape::SessionKey(realm.runs.len() as u8);
        let next_nonce = Shape::Nonce(realm.runs.len() as u8);
        let terms = &mut realm.terms;
        let mut locked = |body: &[Shape], key: Shape| {
            let (body, key) = (terms.list(body), terms.make(key));
            terms.encrypt(body, key)
        };
        match step {
            1 => vec![realm.terms.list(&[a, b, next_nonce])],
            3 => {
                let mut part = vec![next_key.clone(), b, clock.clone(), nonce];
                let ticket = locked(&[next_key, a, clock], Shape::LongTermKey(self.b));
                if rules == Rules::Within {
                    part.push(ticket.shape().clone());
                }
                let part = locked(&part, Shape::LongTermKey(self.a));
                match rules {
                    Rules::Apart => vec![part, ticket],
                    Rules::Beside => vec![terms.pair(part, ticket)],
                    Rules::Within => vec![part],
                }
            }
            4 => {
                let authenticator = locked(&[a, clock], key);
                let carried = self.x.clone();
                vec![match carried {
                    Some(x) => terms.pair(x, authenticator),
                    None => authenticator,
                }]
            }
            5 => vec![locked(&[Shape::Time(self.ta)], key)],
            _ => vec![],
        }
    }
}
