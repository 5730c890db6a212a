//! The row of many principals: the tables that its records meet, and what they are
//! answered.

mod common;

use std::collections::{BTreeMap, BTreeSet};

use bench::walks;
use common::{answers, realm, records};
use reference::file::{Record, StepRecord};

/// The records that repeat, which are all steps, with their answers.
fn repeated() -> Vec<(StepRecord, String)> {
    let (filling, file) = (records(&walks::principals(0)).len(), walks::principals(8));
    let answered = records(&file).into_iter().zip(answers(&file)).skip(filling);
    let step = |(record, answer)| match record {
        Record::Step(step) => (step, answer),
        Record::Term(_) => panic!("a term: {answer}"),
    };
    answered.map(step).collect()
}

#[test]
fn exchanges_of_all_fill_the_tables() {
    let filled = realm(&walks::principals(0));
    assert_eq!((filled.settings.principals, filled.settings.flags.count_ones()), (32, 7));
    assert_eq!((filled.terms.count(), filled.runs.len(), filled.cache.len()), (512, 64, 16));
    let of_runs: BTreeSet<u8> = filled.runs.iter().flat_map(|run| [run.a, run.b]).collect();
    assert_eq!(of_runs, (1..32).collect());
    let filling = answers(&walks::principals(0));
    assert!(filling.iter().all(|answer| !answer.contains("refused")));
}

#[test]
fn nothing_but_the_clock_changes() {
    let (filled, after) = (realm(&walks::principals(0)), realm(&walks::principals(8)));
    assert_eq!((after.cache, after.runs), (filled.cache, filled.runs));
    assert_eq!(after.terms.count(), filled.terms.count());
    assert_eq!(after.wire.len(), filled.wire.len());
    let ticks = repeated().iter().filter(|(step, _)| step.step == 7).count();
    assert!(ticks > 150, "{ticks}");
    assert_eq!(after.clock, filled.clock + ticks as u32);
}

/// What each step is answered, with the share of all records that repeat, in
/// thousandths.
#[test]
fn answers_are_mixed() {
    let repeated = repeated();
    let mut counts = BTreeMap::new();
    for (step, answer) in &repeated {
        *counts.entry((step.step, answer.as_str())).or_insert(0) += 1;
    }
    let shares = counts.iter().map(|(&(step, answer), count)| {
        let share = (count * 1_000 + repeated.len() / 2) / repeated.len();
        (step, answer.strip_prefix("ST ").unwrap(), share)
    });
    let expected = [
        (4, "refused 11", 59),
        (4, "refused 15", 44),
        (4, "refused 16", 15),
        (4, "refused 20", 29),
        (5, "refused 14", 59),
        (5, "refused 15", 44),
        (5, "refused 16", 15),
        (5, "refused 17", 44),
        (5, "refused 18", 59),
        (5, "refused 19", 59),
        (5, "refused 22", 44),
        (6, "refused 15", 15),
        (6, "refused 16", 15),
        (7, "ok - +0", 31),
        (8, "ok - +0", 219),
        (10, "ok - +0", 120),
        (10, "refused 15", 130),
    ];
    assert_eq!(shares.collect::<Vec<_>>(), expected);
}

/// Of the records with a message, four of five are answered after it was found what
/// the intruder can derive.
#[test]
fn most_messages_meet_the_intruder() {
    let repeated = repeated();
    let with_message = repeated.iter().filter(|(step, _)| [4, 5, 6, 10].contains(&step.step));
    let answers: Vec<&str> = with_message.map(|(_, answer)| answer.as_str()).collect();
    let before = ["ST refused 11", "ST refused 14"];
    let met = answers.iter().filter(|answer| !before.contains(answer)).count();
    assert!(answers.len() * 2 > repeated.len(), "{}", answers.len());
    assert!(met * 5 > answers.len() * 4, "{met}");
}

/// Step 10 is on something under the key of each; whatever is under a bad one's
/// key is derivable.
#[test]
fn each_is_purged_and_asked_about() {
    let filled = realm(&walks::principals(0));
    let (mut purged, mut asked) = (BTreeSet::new(), BTreeSet::new());
    for (step, answer) in repeated() {
        let message = filled.terms.at(step.message).unwrap();
        let key = message.encrypted().and_then(|(_, key)| key.long_term_key());
        match (step.step, key) {
            (8, _) => purged.insert(step.b),
            (10, Some(p)) => {
                assert!(answer == "ST ok - +0" || !filled.settings.is_bad(p));
                asked.insert(p)
            }
            _ => false,
        };
    }
    assert_eq!(purged, (1..32).collect());
    assert_eq!(asked, (1..32).collect());
}
