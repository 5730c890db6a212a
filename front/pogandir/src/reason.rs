//! Why a call was refused, in words with the numbers that decided it. The engine has decided before; here its tables are looked at.

use std::collections::BTreeSet;

use engine::{is_marked, Call, Header, Set, Tables, TERM_PLACES};

use crate::answers::{role, stage};
use crate::forms::{self, Values};
use crate::message::missing;
use crate::notation::notation;
use crate::vocabulary::*;
use crate::walk::Walk;

/// Why a header was refused.
pub fn header(mark: &Mark, header: &Header) -> String {
    let Use::Header { most, .. } = mark.purpose else { return String::new() };
    let n = header.n;
    let above = u64::from(header.flags) >> n.min(63);
    let words = [
        (!(LEAST_PRINCIPALS..=most).contains(&n)).then(|| {
            format!("n is {n}, and under {} {LEAST_PRINCIPALS} to {most} is allowed", mark.letters)
        }),
        (header.flags & 1 == 1).then(|| "a flag on 0, the server".to_string()),
        (n > 0 && above != 0)
            .then(|| format!("a flag at {n} or above: principals are 0 to {}", n - 1)),
        (header.ticket_life == 0).then(|| "Ls, the ticket's life, is 0".to_string()),
        (header.authenticator_life == 0).then(|| "La, the authenticator's life, is 0".to_string()),
    ];
    words.into_iter().flatten().collect::<Vec<_>>().join("; ")
}

/// Why the engine refused a call on these tables.
pub fn refused(walk: &Walk, before: &Tables, call: Call, refusal: u8) -> String {
    let words = match call {
        Call::Term { kind, l, r } => term_refused(walk, before, (kind, l, r), refusal),
        Call::Step { .. } => step_refused(walk, before, call, refusal),
    };
    words.unwrap_or_default()
}

fn not_there(what: &str, number: usize, count: usize) -> String {
    match count {
        0 => format!("{what} {number} is not there: there is none"),
        1 => format!("{what} {number} is not there: there is 0 alone"),
        _ => format!("{what} {number} is not there: there are 0 to {}", count - 1),
    }
}

fn term_refused(walk: &Walk, before: &Tables, term: (u8, u16, u16), refusal: u8) -> Option<String> {
    let (kind, l, r) = term;
    let absent = |number: u16| usize::from(number) >= before.realm.terms;
    let terms = |number: u16| not_there("term", number.into(), before.realm.terms);
    Some(match (refusal, kind) {
        (REFUSED_KIND, _) => format!("there is no kind {kind}: kinds are 0 to {ENCRYPTED}"),
        (REFUSED_UNUSED, _) => {
            format!("a {} does not use R, which is {r}", Kind::of(kind.into())?.name)
        }
        (REFUSED_RANGE, PRINCIPAL | LONG_TERM_KEY) => no_principal(walk, l.into()),
        (REFUSED_RANGE, NONCE | SESSION_KEY) => {
            format!("{} {l} is above {MOST_NONCE_OR_KEY}", Kind::of(kind.into())?.name)
        }
        (REFUSED_RANGE, _) if absent(l) => terms(l),
        (REFUSED_RANGE, _) if absent(r) => terms(r),
        (REFUSED_RANGE, _) => format!("{} is no key", notation(before, &walk.names, r)),
        (REFUSED_TERMS_FULL, _) => full(before, 1),
        _ => return None,
    })
}

fn no_principal(walk: &Walk, number: u32) -> String {
    format!("principal {number} is not there: there are 0 to {}", walk.header.n - 1)
}

fn full(tables: &Tables, needed: usize) -> String {
    let used = tables.realm.terms;
    let more = if needed == 1 { "1 more is".to_string() } else { format!("{needed} more are") };
    format!("{used} of {TERM_PLACES} terms are there, and {more} needed")
}

fn step_refused(walk: &Walk, before: &Tables, call: Call, refusal: u8) -> Option<String> {
    let Call::Step { step, run, m, t, .. } = call else { return None };
    let realm = &before.realm;
    let clock = realm.clock;
    let (ls, la) = (u64::from(realm.ticket_life), u64::from(realm.authenticator_life));
    Some(match refusal {
        REFUSED_KIND => format!("there is no step {step}: steps are 1 to {}", STEPS.len()),
        REFUSED_UNUSED => unused(call)?,
        REFUSED_RANGE => out_of_range(walk, before, call)?,
        REFUSED_STAGE => wrong_stage(walk, before, step, run)?,
        REFUSED_CLOCK => format!("the clock is {clock}, and {t} is before it"),
        REFUSED_RUNS_FULL => format!("runs 0 to {} are there", realm.runs - 1),
        REFUSED_FORM => {
            let form = forms::form(&walk.names, before, step, run)?;
            format!("the step takes {form}")
        }
        REFUSED_UNDERIVABLE => format!("he lacks {}", lacks(walk, before, m)),
        REFUSED_TICKET => {
            let ts = u64::from(forms::values(before, call)?.ts?);
            format!("Ts {ts} + Ls {ls} = {}, and the clock is {clock}", ts + ls)
        }
        REFUSED_AUTHENTICATOR => {
            let ta = u64::from(forms::values(before, call)?.ta?);
            format!("Ta {ta} + La {la} = {}, and the clock is {clock}", ta + la)
        }
        REFUSED_AHEAD => {
            let ta = forms::values(before, call)?.ta?;
            format!("Ta is {ta}, and clock {clock} + La {la} = {}", u64::from(clock) + la)
        }
        REFUSED_REPLAY => replayed(walk, before, call)?,
        REFUSED_CACHE_FULL => cache_full(walk, before),
        REFUSED_TERMS_FULL => full(before, missing(&forms::sent(before, call)?, before)),
        _ => return None,
    })
}

fn unused(call: Call) -> Option<String> {
    let Call::Step { step, run, a, b, m, t } = call else { return None };
    let uses = Step::of(step.into())?.uses;
    let fields = [("run", run.into()), ("a", a.into()), ("b", b.into()), ("m", m.into()), ("t", t)];
    let set: Vec<String> = fields
        .iter()
        .filter(|(name, value)| !uses.contains(name) && *value != 0)
        .map(|(name, value)| format!("{name}, which is {value}"))
        .collect();
    Some(format!("step {step} does not use {}", set.join(", nor ")))
}

fn out_of_range(walk: &Walk, before: &Tables, call: Call) -> Option<String> {
    let Call::Step { step, run, a, b, m, .. } = call else { return None };
    let uses = Step::of(step.into())?.uses;
    let n = before.realm.n;
    if let Some(absent) = [a, b].into_iter().find(|&principal| principal >= n) {
        return Some(no_principal(walk, absent.into()));
    }
    if uses.contains(&"a") && (a == 0 || b == 0) {
        return Some("principal 0, the server, is neither a nor b of a run".to_string());
    }
    if uses.contains(&"a") && a == b {
        return Some(format!("a and b are both {}", walk.names.principal(a)));
    }
    if uses.contains(&"run") && usize::from(run) >= before.realm.runs {
        return Some(not_there("run", run.into(), before.realm.runs));
    }
    Some(not_there("term", m.into(), before.realm.terms))
}

fn wrong_stage(walk: &Walk, before: &Tables, step: u8, run: u8) -> Option<String> {
    let row = before.run(run)?;
    let is = format!("{}, {}", role(row.role), stage(row.stage));
    Some(format!("step {step} needs {}; {} is: {is}", forms::needs(step), walk.names.run(run)))
}

/// The least parts of a message that the intruder cannot derive.
fn lacks(walk: &Walk, before: &Tables, m: u16) -> String {
    let known = before.known().expect("the engine's own tables hold together");
    let mut parts = BTreeSet::new();
    least(before, &known, m, &mut BTreeSet::new(), &mut parts);
    let shown: Vec<String> =
        parts.iter().map(|&part| notation(before, &walk.names, part)).collect();
    shown.join(", ")
}

fn least(
    tables: &Tables,
    known: &Set,
    term: u16,
    seen: &mut BTreeSet<u16>,
    parts: &mut BTreeSet<u16>,
) {
    if is_marked(known, term) || !seen.insert(term) {
        return;
    }
    match tables.term(term) {
        Some(engine::Term { kind: PAIR | ENCRYPTED, l, r }) => {
            least(tables, known, l, seen, parts);
            least(tables, known, r, seen, parts);
        }
        _ => drop(parts.insert(term)),
    }
}

fn replayed(walk: &Walk, before: &Tables, call: Call) -> Option<String> {
    let Values { b: Some(b), k: Some(k), ta: Some(ta), .. } = forms::values(before, call)? else {
        return None;
    };
    let entry = engine::Entry { b: b.into(), k: k.into(), ta };
    let place = before.entries().iter().position(|&other| other == entry)?;
    let record = walk.remembered(entry)?;
    let name = walk.names.principal(b);
    Some(format!("entry {place}: {name}, k{k}, Ta {ta}, remembered at record {record}"))
}

fn cache_full(walk: &Walk, before: &Tables) -> String {
    let (clock, la) = (u64::from(before.realm.clock), u64::from(before.realm.authenticator_life));
    let dead = before.entries().iter().filter(|entry| u64::from(entry.ta) + la <= clock);
    let principals: BTreeSet<String> =
        dead.map(|entry| walk.names.principal(entry.b as u8)).collect();
    match principals.len() {
        0 => "all of them are live".to_string(),
        _ => {
            let names: Vec<String> = principals.into_iter().collect();
            format!("{} can forget some of them", names.join(", "))
        }
    }
}
