//! New and known terms: what a TM record says of its term, and how many terms a
//! step has added.

mod common;

use common::{check, check_each, times, EXCHANGE};
use reference::file::{read_header, read_record, Record};
use reference::realm::{Answer, Realm};

/// Case F, up to the confirmation that step 5 sends.
fn accepted() -> String {
    format!("{EXCHANGE}\nST 5 run=2 m=17 => ok 2 +1\n")
}

#[test]
fn a_term_of_each_kind_is_new_once() {
    let kinds = ["0 L=1", "1 L=1", "2 L=1", "3 L=1", "4 L=1", "5 L=0 R=1", "6 L=0 R=4"];
    let mut text = "HD n=3 Ls=1 La=1 => ok\n".to_string();
    for answer in ["new", "old", "old"] {
        for (number, kind) in kinds.iter().enumerate() {
            text += &format!("TM {kind} => {number} {answer}\n");
        }
    }
    check(&(text + "end runs 0 wire 0 cache 0 clock 0"));
}

#[test]
fn what_a_step_added_is_old() {
    let step_1 = "ST 1 a=1 b=2 => ok 0 +5\nTM 5 L=0 R=3 => 4 old\nTM 2 L=0 => 2 old";
    check(&format!("HD n=3 Ls=1 La=1 => ok\n{step_1}\nTM 2 L=1 => 5 new"));
    check(&format!(
        "{}
         TM 4 L=1       => 5 old    # by step 3
         TM 1           => 6 old
         TM 3 L=2       => 14 old
         TM 6 L=13 R=14 => 15 old
         TM 6 L=12 R=5  => 16 old   # by step 4
         TM 6 L=6 R=5   => 18 old   # by step 5
         TM 6 L=5 R=5   => 19 new",
        accepted()
    ));
}

/// What is refused was not added: the term is new, or still not there.
#[test]
fn a_refused_record_makes_no_term_known() {
    check(&format!(
        "HD n=3 Ls=9 La=9 => ok
         TM 0 L=1 R=1 => refused 5
         TM 0 L=1     => 0 new
         ST 1 a=1 b=1 => refused 6
         {}
         ST 1 a=1 b=2 => refused 20
         TM 2 L=0     => 509 new
         TM 0 L=2     => 510 new
         TM 5 L=0 R=0 => 511 new
         TM 5 L=1 R=1 => refused 20
         TM 5 L=0 R=0 => 511 old",
        times(1, 509)
    ));
}

/// The terms of step 1 are 1, 2, the nonce, [2, nonce] and [1, ..].
#[test]
fn step_1_adds_what_is_not_present() {
    let before = [
        (&[][..], 5),
        (&["TM 0 L=1 => 0 new"], 4),
        (&["TM 0 L=2 => 0 new"], 4),
        (&["TM 2 L=0 => 0 new"], 4),
        (&["TM 0 L=2 => 0 new", "TM 2 L=0 => 1 new"], 3),
        (&["TM 0 L=2 => 0 new", "TM 2 L=0 => 1 new", "TM 5 L=0 R=1 => 2 new"], 2),
        (&["TM 0 L=1 => 0 new", "TM 0 L=2 => 1 new", "TM 2 L=0 => 2 new"], 2),
        (
            &[
                "TM 0 L=1 => 0 new",
                "TM 0 L=2 => 1 new",
                "TM 2 L=0 => 2 new",
                "TM 5 L=1 R=2 => 3 new",
            ],
            1,
        ),
        (
            &[
                "TM 0 L=1 => 0 new",
                "TM 0 L=2 => 1 new",
                "TM 2 L=0 => 2 new",
                "TM 5 L=1 R=2 => 3 new",
                "TM 5 L=0 R=3 => 4 new",
            ],
            0,
        ),
        (&["TM 0 L=1 => 0 new", "TM 0 L=1 => 0 old"], 4),
        (&["TM 2 L=1 => 0 new", "TM 3 L=1 => 1 new", "TM 4 L=0 => 2 new"], 5),
    ];
    for (terms, added) in before {
        let terms = terms.join("\n");
        check(&format!("HD n=3 Ls=9 La=9 => ok\n{terms}\nST 1 a=1 b=2 => ok 0 +{added}"));
    }
}

/// Neither what earlier runs added is counted again, nor the whole table.
#[test]
fn a_step_tells_the_growth_and_not_the_count() {
    check(
        "HD n=4 Ls=9 La=9 => ok
         TM 1 L=9     => 0 new
         ST 1 a=1 b=2 => ok 0 +5
         ST 1 a=1 b=2 => ok 1 +3     # its nonce and two pairs
         ST 1 a=2 b=1 => ok 2 +3
         ST 1 a=1 b=3 => ok 3 +4
         ST 3 m=5     => ok 4 +11
         ST 3 m=5     => ok 5 +5     # K and what holds it
         ST 3 m=8     => ok 6 +7     # another nonce
         TM 0 L=0     => 39 new
         end runs 7 wire 10 cache 0 clock 0",
    );
}

/// K, b, Ts, N under a's key and K, a, Ts under b's: of the eleven that are not in
/// m, K and Ts stand twice.
#[test]
fn a_term_used_twice_counts_once() {
    let request = "HD n=3 Ls=9 La=9 => ok\nST 1 a=1 b=2 => ok 0 +5\n";
    check_each(
        request,
        &[
            "ST 3 m=4 => ok 1 +11\nTM 0 L=0 => 16 new",
            "TM 4 L=1 => 5 new\nST 3 m=4 => ok 1 +10",
            "TM 1 => 5 new\nST 3 m=4 => ok 1 +10",
            "TM 1 => 5 new\nTM 4 L=1 => 6 new\nST 3 m=4 => ok 1 +9",
            "TM 1 => 5 new\nTM 5 L=5 R=2 => 6 new\nTM 5 L=0 R=5 => 7 new\nST 3 m=4 => ok 1 +8",
            "TM 3 L=1 => 5 new\nTM 3 L=2 => 6 new\nTM 3 L=0 => 7 new\nST 3 m=4 => ok 1 +9",
            "ST 7 t=1 => ok - +0\nTM 1 => 5 new\nST 3 m=4 => ok 1 +11",
        ],
    );
}

/// {a, Ta}K: Ta is the ticket's time, or one that was added before, or none.
#[test]
fn step_4_adds_none_to_three() {
    let served = "
        HD n=3 Ls=9 La=9 => ok
        ST 1 a=1 b=2 => ok 0 +5
        ST 3 m=4     => ok 1 +11\n";
    check_each(
        served,
        &[
            "ST 4 run=0 m=11 => ok 0 +1",
            "TM 6 L=12 R=5 => 16 new\nST 4 run=0 m=11 => ok 0 +0",
            "ST 7 t=3 => ok - +0\nST 4 run=0 m=11 => ok 0 +3",
            "ST 7 t=3 => ok - +0\nTM 1 R=3 => 16 new\nST 4 run=0 m=11 => ok 0 +2",
            "ST 7 t=3 => ok - +0\nTM 1 R=3 => 16 new\nTM 5 L=0 R=16 => 17 new\nST 4 run=0 m=11 => ok 0 +1",
        ],
    );
}

#[test]
fn step_5_adds_one_or_none() {
    check_each(
        EXCHANGE,
        &["ST 5 run=2 m=17 => ok 2 +1", "TM 6 L=6 R=5 => 18 new\nST 5 run=2 m=17 => ok 2 +0"],
    );
}

#[test]
fn the_other_steps_add_none_and_say_so() {
    check_each(
        &accepted(),
        &[
            "ST 2 a=3 b=4    => ok 3 +0",
            "ST 6 run=0 m=18 => ok 0 +0",
            "ST 7 t=9        => ok - +0",
            "ST 7 t=0        => ok - +0",
            "ST 8 b=2        => ok - +0",
            "ST 8 b=0        => ok - +0",
            "ST 9 run=1      => ok 1 +0",
            "ST 9 run=1      => ok 1 +0\nST 9 run=1 => ok 1 +0",
            "ST 10 m=4       => ok - +0",
            "ST 10 m=17      => ok - +0",
        ],
    );
}

/// A full table: present terms are old, and steps that need no place add none.
#[test]
fn a_full_table_knows_its_terms() {
    let spelt = "
        TM 2 L=3      => 18 new
        TM 5 L=1 R=18 => 19 new
        TM 6 L=6 R=5  => 20 new\n";
    let full = times(21, 512);
    check_each(
        &format!("{EXCHANGE}{spelt}{full}"),
        &[
            "TM 5 L=15 R=16 => 17 old\nTM 1 L=9 R=511 => 511 old\nTM 1 L=9 R=512 => refused 20",
            "ST 5 run=2 m=17 => ok 2 +0\nST 6 run=0 m=20 => ok 0 +0\nST 9 run=1 => ok 1 +0",
            "ST 1 a=1 b=2 => refused 20",
        ],
    );
    let one_left = times(21, 511);
    check(&format!("{EXCHANGE}{spelt}{one_left}ST 1 a=1 b=2 => ok 3 +1\nTM 1 L=8 => refused 20"));
}

/// Step by step on the tables themselves: the answer is the growth.
#[test]
fn an_answer_tells_how_the_table_grew() {
    let file = common::walk(&format!(
        "{}
         TM 5 L=15 R=16
         ST 1 a=1 b=2
         ST 3 m=21
         ST 9 run=1
         TM 0 L=0",
        accepted()
    ));
    let (header, mut rest) = read_header(&file).unwrap();
    let mut realm = Realm::new(header.settings());
    let mut grown = Vec::new();
    while let Some(Ok((record, after))) = read_record(rest) {
        rest = after;
        let before = realm.terms.count();
        let added = match (realm.apply(&record).unwrap(), record) {
            (Answer::Old(_), Record::Term(_)) => 0,
            (Answer::New(number), Record::Term(_)) => {
                assert_eq!(usize::from(number), before);
                1
            }
            (Answer::Step { added, .. }, Record::Step(_)) => added,
            other => panic!("{other:?}"),
        };
        assert_eq!(realm.terms.count(), before + added, "{record:?}");
        grown.push(added);
    }
    assert_eq!(grown, [5, 11, 1, 0, 1, 1, 0, 3, 7, 0, 1]);
}
