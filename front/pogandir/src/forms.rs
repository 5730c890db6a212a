//! The messages of the exchange: their forms, which steps take and send them under
//! which rule set, and their names. Everything that is said of a message is read off
//! its form: where the values stand in it, what it is in words, and the message that
//! a step sends.

use engine::{Call, Run, Stage, Tables, Term};

use crate::message::{encrypted, list, Message};
use crate::notation::Names;
use crate::vocabulary::{ACCEPT, AUTHENTICATE, FINISH, INITIATE, ISSUE, LEAK, RESPOND, STEPS};
use crate::vocabulary::{APART, BESIDE};

/// A message with places for values.
#[derive(Clone, Copy, Debug, PartialEq, Eq)]
pub enum Form {
    A,
    B,
    K,
    Ts,
    Ta,
    N,
    /// Any term: what an initiator gets as the ticket, and does not look at.
    X,
    KeyOfA,
    KeyOfB,
    List(&'static [Form]),
    Under(&'static [Form], &'static Form),
}

use Form::{KeyOfA, KeyOfB, List, Ta, Ts, Under, A, B, K, N, X};

const PART: Form = Under(&[K, B, Ts, N], &KeyOfA);
const TICKET: Form = Under(&[K, A, Ts], &KeyOfB);
const AUTHENTICATOR: Form = Under(&[A, Ta], &K);

/// A message with its name, and the parts of it that have names too. A message with
/// two such parts is their pair.
#[derive(Clone, Copy, Debug, PartialEq, Eq)]
pub struct Named {
    pub name: &'static str,
    pub form: Form,
    pub parts: &'static [(&'static str, Form)],
}

const fn whole(name: &'static str, form: Form) -> Named {
    Named { name, form, parts: &[] }
}

const REQUEST: Named = whole("request", List(&[A, B, N]));

/// The server puts the ticket in the place of X, and the initiator takes any X there.
fn reply(rules: u8) -> Named {
    let (form, parts): (Form, &[(&str, Form)]) = match rules {
        APART => (PART, &[]),
        BESIDE => (List(&[PART, X]), &[("part", PART), ("ticket", X)]),
        _ => (Under(&[K, B, Ts, N, X], &KeyOfA), &[("ticket", X)]),
    };
    Named { name: "reply", form, parts }
}

/// What an initiator sends that passes X on: what a responder takes, if X is a ticket
/// for it.
const PASSED_ON: Named = Named {
    name: "delivery",
    form: List(&[X, AUTHENTICATOR]),
    parts: &[("ticket", X), ("authenticator", AUTHENTICATOR)],
};

const DELIVERY: Named = Named {
    name: "delivery",
    form: List(&[TICKET, AUTHENTICATOR]),
    parts: &[("ticket", TICKET), ("authenticator", AUTHENTICATOR)],
};

const CONFIRMATION: Named = whole("confirmation", Under(&[Ta], &K));

/// The message that a step takes.
pub fn takes(rules: u8, step: u8) -> Option<Named> {
    Some(match step {
        ISSUE => REQUEST,
        AUTHENTICATE => reply(rules),
        ACCEPT => DELIVERY,
        FINISH => CONFIRMATION,
        _ => return None,
    })
}

/// The messages that a step sends, in their order.
pub fn sends(rules: u8, step: u8) -> Vec<Named> {
    match (step, rules) {
        (INITIATE, _) => vec![REQUEST],
        (ISSUE, APART) => vec![reply(rules), whole("ticket", TICKET)],
        (ISSUE, _) => vec![reply(rules)],
        (AUTHENTICATE, APART) => vec![whole("authenticator", AUTHENTICATOR)],
        (AUTHENTICATE, _) => vec![PASSED_ON],
        (ACCEPT, _) => vec![CONFIRMATION],
        (LEAK, _) => vec![whole("key", K)],
        _ => vec![],
    }
}

/// Whether any step sends a message of this name, or one with a part of this name.
pub fn is_sent(rules: u8, name: &str) -> bool {
    let mut sent = STEPS.iter().flat_map(|step| sends(rules, step.number));
    sent.any(|sent| sent.name == name || sent.parts.iter().any(|(part, _)| *part == name))
}

/// What stands in the places of a form, as far as it is known.
#[derive(Clone, Debug, Default, PartialEq, Eq)]
pub struct Values {
    pub a: Option<u8>,
    pub b: Option<u8>,
    pub k: Option<u8>,
    pub ts: Option<u32>,
    pub ta: Option<u32>,
    pub n: Option<u16>,
    pub x: Option<Message>,
}

impl Form {
    /// The message with these values, if all are known.
    pub fn message(&self, values: &Values) -> Option<Message> {
        let messages = |forms: &[Form]| -> Option<Vec<Message>> {
            forms.iter().map(|form| form.message(values)).collect()
        };
        Some(match self {
            A => Message::Principal(values.a?),
            B => Message::Principal(values.b?),
            K => Message::SessionKey(values.k?.into()),
            Ts => Message::Time(values.ts?),
            Ta => Message::Time(values.ta?),
            N => Message::Nonce(values.n?),
            X => values.x.clone()?,
            KeyOfA => Message::LongTermKey(values.a?),
            KeyOfB => Message::LongTermKey(values.b?),
            List(forms) => list(messages(forms)?),
            Under(forms, key) => encrypted(messages(forms)?, key.message(values)?),
        })
    }

    /// Adds what stands in the places of a term that has the form.
    fn read(&self, tables: &Tables, number: u16, values: &mut Values) -> Option<()> {
        let Term { l, r, .. } = tables.term(number)?;
        let time = u32::from(l) << 16 | u32::from(r);
        match self {
            A => values.a = Some(l as u8),
            B => values.b = Some(l as u8),
            K => values.k = Some(l as u8),
            Ts => values.ts = Some(time),
            Ta => values.ta = Some(time),
            N => values.n = Some(l),
            X => values.x = Some(Message::Present(number)),
            KeyOfA | KeyOfB => {}
            List(forms) => read_list(forms, tables, number, values)?,
            Under(forms, key) => {
                read_list(forms, tables, l, values)?;
                key.read(tables, r, values)?;
            }
        }
        Some(())
    }

    /// In notation. A value that is not known is shown as its letter.
    fn shown(&self, names: &Names, values: &Values) -> String {
        let name = |principal: Option<u8>, letter: &str| {
            principal.map_or(letter.to_string(), |principal| names.principal(principal))
        };
        let time = |time: Option<u32>, letter: &str| {
            time.map_or(letter.to_string(), |time| format!("t{time}"))
        };
        let shown = |forms: &[Form]| -> String {
            let forms: Vec<String> = forms.iter().map(|form| form.shown(names, values)).collect();
            forms.join(", ")
        };
        match self {
            A => name(values.a, "a"),
            B => name(values.b, "b"),
            K => values.k.map_or("K".to_string(), |key| format!("k{key}")),
            Ts => time(values.ts, "Ts"),
            Ta => time(values.ta, "Ta"),
            N => values.n.map_or("N".to_string(), |nonce| format!("N{nonce}")),
            X => "X".to_string(),
            KeyOfA => format!("K({})", A.shown(names, values)),
            KeyOfB => format!("K({})", B.shown(names, values)),
            List(forms) => format!("[{}]", shown(forms)),
            Under(forms, key) => format!("{{{}}}{}", shown(forms), key.shown(names, values)),
        }
    }

    /// Whether any term can stand in a place of the form.
    fn has_any(&self) -> bool {
        match self {
            List(forms) | Under(forms, _) => forms.iter().any(Form::has_any),
            _ => *self == X,
        }
    }
}

fn read_list(forms: &[Form], tables: &Tables, number: u16, values: &mut Values) -> Option<()> {
    let (first, rest) = forms.split_first()?;
    if rest.is_empty() {
        return first.read(tables, number, values);
    }
    let Term { l, r, .. } = tables.term(number)?;
    first.read(tables, l, values)?;
    read_list(rest, tables, r, values)
}

/// A run's own values: its principals, its nonce, and what it has taken.
fn own(tables: &Tables, number: u8) -> Option<Values> {
    let Run { stage, a, b, k, ts, ta, .. } = tables.run(number)?;
    let known = Values { a: Some(a), b: Some(b), n: Some(number.into()), ..Values::default() };
    Some(match stage {
        Stage::Opened => known,
        _ => Values { k: Some(k), ts: Some(ts), ta: Some(ta), ..known },
    })
}

/// The values of a step whose message has its form: those of its run, of its message,
/// and of the clock.
pub fn values(before: &Tables, call: Call) -> Option<Values> {
    let Call::Step { step, run, a, b, m, .. } = call else { return None };
    let (opened, clock) = (before.realm.runs as u8, Some(before.realm.clock));
    let mut values = match step {
        INITIATE | RESPOND => {
            Values { a: Some(a), b: Some(b), n: Some(opened.into()), ..Values::default() }
        }
        ISSUE => Values::default(),
        _ => own(before, run)?,
    };
    if let Some(taken) = takes(before.realm.rules, step) {
        taken.form.read(before, m, &mut values)?;
    }
    Some(match step {
        ISSUE => {
            let values = Values { k: Some(opened), ts: clock, ..values };
            Values { x: TICKET.message(&values), ..values }
        }
        AUTHENTICATE => Values { ta: clock, ..values },
        _ => values,
    })
}

/// What a step sends, or would have sent, had its terms found room.
pub fn sent(before: &Tables, call: Call) -> Option<Vec<Message>> {
    let Call::Step { step, .. } = call else { return None };
    let values = values(before, call)?;
    sends(before.realm.rules, step).iter().map(|sent| sent.form.message(&values)).collect()
}

/// The run that a step needs.
pub fn needs(step: u8) -> &'static str {
    match step {
        AUTHENTICATE => "an initiator that was just opened",
        ACCEPT => "a responder that was just opened",
        FINISH => "an initiator that waits for the confirmation",
        _ => "a server run",
    }
}

/// What a step takes of a run, in notation.
pub fn form(names: &Names, before: &Tables, step: u8, run: u8) -> Option<String> {
    let form = takes(before.realm.rules, step)?.form;
    let values = if step == ISSUE { Values::default() } else { own(before, run)? };
    let shown = form.shown(names, &values);
    Some(match step {
        ISSUE => format!("{shown}, with a and b two principals and not the server"),
        _ if form.has_any() => format!("{shown}, with any term X"),
        _ => shown,
    })
}

/// The names of the halves of what a step takes, if it is a pair.
pub fn halves(rules: u8, step: u8) -> Option<[&'static str; 2]> {
    match takes(rules, step)?.parts {
        [(left, _), (right, _)] => Some([left, right]),
        _ => None,
    }
}
