//! The row of steps that send: how many do, and in which orders.

mod common;

use std::collections::BTreeSet;

use bench::walks;
use common::{answers, realm, records};
use reference::file::{read_header, Record};
use reference::realm::Realm;

/// The numbers of the steps of a file, and for each whether it put a message on
/// the wire that was not there.
fn steps(file: &[u8]) -> Vec<(u8, bool)> {
    let mut realm = Realm::new(read_header(file).unwrap().0.settings());
    let mut steps = Vec::new();
    for record in records(file) {
        let before = realm.wire.len();
        realm.apply(&record).unwrap();
        if let Record::Step(step) = record {
            steps.push((step.step, realm.wire.len() > before));
        }
    }
    steps
}

fn count(steps: &[(u8, bool)], step: u8) -> usize {
    steps.iter().filter(|(found, _)| *found == step).count()
}

#[test]
fn nine_of_ten_steps_send() {
    let files = walks::sending(8);
    assert_eq!(files.len(), walks::SENDING_FILES);
    for file in &files {
        let steps = steps(file);
        let sending = steps.iter().filter(|(_, sends)| *sends).count();
        assert!(sending * 10 >= steps.len() * 9, "{sending} of {}", steps.len());
        assert!(steps.iter().all(|&(step, sends)| sends == (step != 2)));
    }
}

/// Every walk uses up the runs and leaks every key, and some exchanges of it are
/// answered.
#[test]
fn exchanges_go_on_until_the_runs_are_used_up() {
    for file in &walks::sending(8) {
        let steps = steps(file);
        let [asked, met, served, taken, answered, leaked] =
            [1, 2, 3, 4, 5, 9].map(|step| count(&steps, step));
        assert_eq!([served, taken, leaked], [asked; 3]);
        assert_eq!(met, answered);
        assert!((7..=12).contains(&answered), "{answered}");
        assert!(realm(file).runs.len() >= 63);
    }
}

/// No record is refused, and there are no terms but those that step 5 takes.
#[test]
fn only_deliveries_are_spelt() {
    for file in &walks::sending(8) {
        let answers = answers(file);
        assert!(answers.iter().all(|answer| !answer.contains("refused")));
        let terms = answers.iter().filter(|answer| answer.starts_with("TM ")).count();
        assert_eq!(terms, count(&steps(file), 5));
    }
}

/// Since the delivery before it something was sent, so that what the intruder knows
/// is to be found again.
#[test]
fn each_delivery_meets_a_new_wire() {
    for file in &walks::sending(8) {
        let mut sent = false;
        for (step, sends) in steps(file) {
            if (3..=5).contains(&step) {
                assert!(sent);
                sent = false;
            }
            sent |= sends;
        }
    }
}

#[test]
fn orders_differ() {
    let files = walks::sending(8);
    assert_eq!(files.iter().collect::<BTreeSet<_>>().len(), files.len());
    let orders: Vec<Vec<u8>> =
        files.iter().map(|file| steps(file).iter().map(|(step, _)| *step).collect()).collect();
    let distinct: BTreeSet<&Vec<u8>> = orders.iter().collect();
    assert!(distinct.len() > files.len() / 3, "{}", distinct.len());
    let has = |order: &[u8], steps: &[u8]| order.windows(steps.len()).any(|found| found == steps);
    let one_by_one = orders.iter().filter(|order| !has(order, &[1, 1])).count();
    let all_at_once = orders.iter().filter(|order| has(order, &[1; 26])).count();
    let leaks_between = orders.iter().filter(|order| has(order, &[9, 4])).count();
    let quarter = files.len() / 4;
    assert_eq!([one_by_one, all_at_once], [quarter; 2]);
    assert!(leaks_between > quarter / 2, "{leaks_between}");
}
