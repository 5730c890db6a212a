//! Answers in words: as the listing has them, what an accepted call did, and what
//! stands behind an acceptance.

use engine::{Answer, Call, Role, Stage, Tables};

use crate::vocabulary::{LEAK, PURGE, QUERY, TICK};
use crate::walk::{Acceptance, Walk};

pub fn role(role: Role) -> &'static str {
    match role {
        Role::Initiator => "initiator",
        Role::Responder => "responder",
        Role::Server => "server",
    }
}

pub fn stage(stage: Stage) -> &'static str {
    match stage {
        Stage::Opened => "opened",
        Stage::Authenticated => "waits for the confirmation",
        Stage::Done => "done",
    }
}

/// What an accepted call did, where its answer does not say it.
pub fn accepted(walk: &Walk, before: &Tables, call: Call) -> String {
    let after = &walk.tables;
    match call {
        Call::Step { step: TICK, t, .. } if t == before.realm.clock => {
            "the clock stays".to_string()
        }
        Call::Step { step: PURGE, .. } => match before.realm.entries - after.realm.entries {
            0 => "nothing to forget".to_string(),
            1 => "1 entry forgotten".to_string(),
            count => format!("{count} entries forgotten"),
        },
        Call::Step { step: LEAK, run, .. } => {
            let key = after.run(run).map_or(0, |run| run.k);
            match walk.leaked(key) {
                Some(record) => format!("k{key} leaked at record {record} before"),
                None => format!("k{key} is on the wire"),
            }
        }
        Call::Step { step: QUERY, .. } => "he can".to_string(),
        _ => String::new(),
    }
}

/// What stands behind an acceptance.
pub fn acceptance(walk: &Walk, acceptance: &Acceptance) -> String {
    match acceptance {
        Acceptance::Matched(run) => format!("matches {}, and no other run", walk.names.run(*run)),
        Acceptance::NotCovered(why) => format!("no initiator run is promised: {why}"),
    }
}

/// The answer as the listing has it, behind the mark.
pub fn listed(answer: Answer) -> String {
    match answer {
        Answer::Old(number) => format!("{number} old"),
        Answer::New(number) => format!("{number} new"),
        Answer::Ok { run: Some(run), added } => format!("ok {run} +{added}"),
        Answer::Ok { run: None, added } => format!("ok - +{added}"),
        Answer::Refused(number) => format!("refused {number}"),
    }
}
