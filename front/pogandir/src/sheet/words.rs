//! Calls, answers, runs and entries in words.

use engine::{Answer, Call, Entry, Role, Run, Stage};

use crate::answers::{role, stage};
use crate::vocabulary::{Kind, Step, INITIATE, ISSUE, LEAK, PURGE, QUERY, RESPOND, TICK};
use crate::walk::{Taken, Walk};

/// The principal that a run is of.
pub fn owner(run: &Run) -> u8 {
    match run.role {
        Role::Initiator => run.a,
        Role::Responder => run.b,
        Role::Server => 0,
    }
}

pub fn call(walk: &Walk, taken: &Taken) -> String {
    match taken.call {
        Call::Term { kind, l, r } => term(kind, l, r, taken.answer),
        Call::Step { .. } => step(walk, taken),
    }
}

/// What kind of term; of a refused one also its fields.
fn term(kind: u8, l: u16, r: u16, answer: Answer) -> String {
    let Some(known) = Kind::of(kind.into()) else {
        return format!("term: kind {kind}, L {l}, R {r}");
    };
    match answer {
        Answer::Refused(_) => format!("term: {}, L {l}, R {r}", known.name),
        _ => format!("term: {}", known.name),
    }
}

fn step(walk: &Walk, taken: &Taken) -> String {
    let Call::Step { step, run, a, b, t, .. } = taken.call else { return String::new() };
    let name = |principal| walk.names.principal(principal);
    let takes = Step::of(step.into()).and_then(|step| step.takes).unwrap_or("message");
    match step {
        INITIATE => format!("{} asks the server for {}", name(a), name(b)),
        RESPOND => format!("{} waits for {}", name(b), name(a)),
        ISSUE => format!("the server is handed the {takes}"),
        TICK => format!("clock to {t}"),
        PURGE => format!("{} forgets", name(b)),
        LEAK => format!("{}'s key leaks", walk.names.run(run)),
        QUERY => "can the intruder derive this?".to_string(),
        _ if Step::of(step.into()).is_none() => format!("step {step}"),
        _ => format!("{} is handed the {takes}", who(walk, taken, run)),
    }
}

/// A run with its principal.
fn who(walk: &Walk, taken: &Taken, number: u8) -> String {
    let name = walk.names.run(number);
    match taken.runs.get(usize::from(number)) {
        Some(run) => format!("{name} ({})", walk.names.principal(owner(run))),
        None => name,
    }
}

fn counted(count: u16, what: &str) -> String {
    match count {
        1 => format!("1 {what}"),
        _ => format!("{count} {what}s"),
    }
}

/// What an accepted answer says.
pub fn meaning(walk: &Walk, answer: Answer) -> String {
    let named = |run: Option<u8>| run.map(|run| walk.names.run(run));
    match answer {
        Answer::Old(number) => format!("term {number}, which was there"),
        Answer::New(number) => format!("term {number} is added"),
        Answer::Refused(_) => String::new(),
        Answer::Ok { run, added } => match (named(run), added) {
            (None, _) => "accepted".to_string(),
            (Some(run), 0) => format!("accepted: {run}"),
            (Some(run), _) => format!("accepted: {run}, {}", counted(added, "new term")),
        },
    }
}

/// A run's principals, role, stage, and its values as far as they are taken.
pub fn run(walk: &Walk, run: &Run) -> String {
    let (a, b) = (walk.names.principal(run.a), walk.names.principal(run.b));
    let whose = match run.role {
        Role::Initiator => format!("{a} to {b}"),
        Role::Responder => format!("{b} for {a}"),
        Role::Server => format!("for {a} and {b}"),
    };
    let values = match (run.role, run.stage) {
        (Role::Server, _) => format!("; k{}, Ts {}", run.k, run.ts),
        (_, Stage::Opened) => String::new(),
        _ => format!("; k{}, Ts {}, Ta {}", run.k, run.ts, run.ta),
    };
    format!("{}, {whose}: {}{values}", role(run.role), stage(run.stage))
}

/// An entry of the cache, and how long it is live.
pub fn entry(walk: &Walk, entry: &Entry, ends: u64, clock: u32) -> String {
    let name = walk.names.principal(entry.b as u8);
    let life = if u64::from(clock) < ends { "live before" } else { "was live before" };
    format!("{name}, k{}, Ta {}, {life} {ends}", entry.k, entry.ta)
}
