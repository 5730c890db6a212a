//! Refusals 4, 5 and 6: what a record's own fields say.

mod common;

use common::{check, check_each, responders, times, EXCHANGE};

const REALM: &str = "HD n=3 Ls=1 La=1 => ok";

#[test]
fn kinds_above_6_are_unknown_whatever_the_fields() {
    check_each(
        REALM,
        &["TM 7 => refused 4", "TM 255 => refused 4", "TM 7 L=65535 R=65535 => refused 4"],
    );
}

#[test]
fn steps_outside_1_to_10_are_unknown_whatever_the_fields() {
    check_each(
        REALM,
        &[
            "ST 0 => refused 4",
            "ST 11 => refused 4",
            "ST 12 => refused 4",
            "ST 255 => refused 4",
            "ST 0 run=9 a=9 b=9 m=9 t=9 => refused 4",
            "ST 11 run=9 a=9 b=9 m=9 t=9 => refused 4",
        ],
    );
}

#[test]
fn kinds_with_one_operand_do_not_use_the_other() {
    check_each(
        REALM,
        &[
            "TM 0 L=1 R=1 => refused 5",
            "TM 2 L=1 R=1 => refused 5",
            "TM 3 L=1 R=256 => refused 5",
            "TM 4 L=1 R=65535 => refused 5",
        ],
    );
}

#[test]
fn times_use_both_operands() {
    check(
        "HD n=3 Ls=1 La=1 => ok
         TM 1 L=0 R=0 => 0 new
         TM 1 L=65535 R=65535 => 1 new
         TM 1 L=0 R=1 => 2 new
         TM 1 L=1 R=0 => 3 new
         TM 1 L=0 R=1 => 2 old",
    );
}

#[test]
fn an_unused_field_comes_before_a_bad_reference() {
    check_each(
        REALM,
        &[
            "TM 0 L=3 R=1 => refused 5",
            "TM 2 L=96 R=1 => refused 5",
            "TM 3 L=3 R=1 => refused 5",
            "TM 4 L=96 R=1 => refused 5",
            "ST 1 a=1 b=1 t=1 => refused 5",
            "ST 3 m=9 run=1 => refused 5",
            "ST 4 run=9 m=9 a=1 => refused 5",
            "ST 8 b=9 m=1 => refused 5",
            "ST 9 run=9 b=1 => refused 5",
            "ST 10 m=9 run=1 => refused 5",
        ],
    );
}

#[test]
fn each_step_uses_its_own_fields_only() {
    // Step, fields that it uses and that are good, fields that it does not use.
    let steps: [(u8, &str, &[&str]); 10] = [
        (1, "a=1 b=2", &["run", "m", "t"]),
        (2, "a=1 b=2", &["run", "m", "t"]),
        (3, "m=4", &["run", "a", "b", "t"]),
        (4, "run=0 m=11", &["a", "b", "t"]),
        (5, "run=2 m=17", &["a", "b", "t"]),
        (6, "run=0 m=17", &["a", "b", "t"]),
        (7, "t=1", &["run", "a", "b", "m"]),
        (8, "b=2", &["run", "a", "m", "t"]),
        (9, "run=1", &["a", "b", "m", "t"]),
        (10, "m=4", &["run", "a", "b", "t"]),
    ];
    for (step, used, unused) in steps {
        for field in unused {
            check(&format!("{EXCHANGE}\nST {step} {used} {field}=1 => refused 5"));
        }
    }
}

#[test]
fn high_bytes_of_unused_fields_count() {
    check_each(
        EXCHANGE,
        &[
            "ST 8 b=2 m=256 => refused 5",
            "ST 8 b=2 t=0x01000000 => refused 5",
            "TM 0 L=1 R=0x0100 => refused 5",
        ],
    );
}

#[test]
fn terms_with_bad_references() {
    let beginning = "
        HD n=3 Ls=1 La=1 => ok
        TM 0 L=2 => 0 new
        TM 4 L=0 => 1 new
        TM 3 L=0 => 2 new
        TM 2 L=0 => 3 new
        TM 1 L=0 => 4 new
        TM 5 L=0 R=0 => 5 new
        TM 6 L=0 R=1 => 6 new";
    check_each(
        beginning,
        &[
            "TM 0 L=3 => refused 6",
            "TM 0 L=65535 => refused 6",
            "TM 0 L=256 => refused 6",
            "TM 3 L=3 => refused 6",
            "TM 2 L=96 => refused 6",
            "TM 2 L=352 => refused 6",
            "TM 4 L=96 => refused 6",
            "TM 5 L=7 R=0 => refused 6",
            "TM 5 L=0 R=7 => refused 6",
            "TM 6 L=7 R=1 => refused 6",
            "TM 6 L=1 R=7 => refused 6",
            "TM 6 L=0 R=0 => refused 6",
            "TM 6 L=0 R=3 => refused 6",
            "TM 6 L=0 R=4 => refused 6",
            "TM 6 L=0 R=5 => refused 6",
            "TM 6 L=0 R=6 => refused 6",
        ],
    );
}

#[test]
fn terms_at_the_ends_of_their_ranges() {
    check(
        "HD n=3 Ls=1 La=1 => ok
         TM 0 L=0 => 0 new
         TM 0 L=2 => 1 new
         TM 2 L=0 => 2 new
         TM 2 L=95 => 3 new
         TM 3 L=0 => 4 new
         TM 3 L=2 => 5 new
         TM 4 L=0 => 6 new
         TM 4 L=95 => 7 new
         TM 5 L=7 R=7 => 8 new
         TM 6 L=8 R=7 => 9 new
         TM 6 L=7 R=7 => 10 new
         TM 6 L=9 R=4 => 11 new",
    );
}

#[test]
fn an_operand_is_an_earlier_term() {
    check(
        "HD n=3 Ls=1 La=1 => ok
         TM 5 L=0 R=0 => refused 6
         TM 4 L=0 => 0 new
         TM 5 L=1 R=0 => refused 6
         TM 5 L=0 R=0 => 1 new
         TM 6 L=0 R=0 => 2 new",
    );
}

#[test]
fn no_term_stands_twice() {
    check(
        "HD n=3 Ls=1 La=1 => ok
         TM 0 L=1 => 0 new
         TM 4 L=1 => 1 new
         TM 2 L=1 => 2 new
         TM 3 L=1 => 3 new
         TM 5 L=0 R=1 => 4 new
         TM 5 L=1 R=0 => 5 new
         TM 6 L=0 R=1 => 6 new
         TM 0 L=1 => 0 old
         TM 4 L=1 => 1 old
         TM 2 L=1 => 2 old
         TM 3 L=1 => 3 old
         TM 5 L=0 R=1 => 4 old
         TM 5 L=1 R=0 => 5 old
         TM 6 L=0 R=1 => 6 old",
    );
}

#[test]
fn steps_1_and_2_need_two_different_clients() {
    for (step, added) in [(1, 5), (2, 0)] {
        for fields in
            ["a=0 b=2", "a=1 b=0", "a=1 b=1", "a=0 b=0", "a=3 b=1", "a=1 b=3", "a=255 b=1"]
        {
            check(&format!("{REALM}\nST {step} {fields} => refused 6"));
        }
        check(&format!("{REALM}\nST {step} a=2 b=1 => ok 0 +{added}"));
    }
}

#[test]
fn steps_with_absent_runs_and_terms() {
    // The exchange has runs 0 to 2 and terms 0 to 17.
    check_each(
        EXCHANGE,
        &[
            "ST 3 m=18 => refused 6",
            "ST 3 m=65535 => refused 6",
            "ST 4 run=3 m=11 => refused 6",
            "ST 4 run=0 m=18 => refused 6",
            "ST 5 run=3 m=17 => refused 6",
            "ST 5 run=2 m=18 => refused 6",
            "ST 6 run=255 m=17 => refused 6",
            "ST 6 run=0 m=18 => refused 6",
            "ST 8 b=5 => refused 6",
            "ST 9 run=3 => refused 6",
            "ST 10 m=18 => refused 6",
        ],
    );
}

#[test]
fn a_bad_reference_comes_before_the_state() {
    // A wrong stage, and a term that is not there.
    check_each(
        EXCHANGE,
        &[
            "ST 4 run=2 m=18 => refused 6",
            "ST 5 run=0 m=18 => refused 6",
            "ST 6 run=1 m=18 => refused 6",
        ],
    );
    // All runs taken.
    check(&format!("{REALM}\n{}\nST 1 a=1 b=1 => refused 6", responders(0, 64)));
    check(&format!("{REALM}\n{}\nST 3 m=0 => refused 6", responders(0, 64)));
    // The term table full.
    check(&format!("{REALM}\n{}\nTM 0 L=3 => refused 6", times(0, 512)));
    check(&format!("{REALM}\n{}\nTM 5 L=512 => refused 6", times(0, 512)));
    check(&format!("{REALM}\n{}\nTM 0 L=1 R=1 => refused 5", times(0, 512)));
}

#[test]
fn step_8_for_the_server_forgets_nothing() {
    check(&format!(
        "{EXCHANGE}
         ST 5 run=2 m=17 => ok 2 +1
         ST 7 t=50 => ok - +0
         ST 8 b=0 => ok - +0
         end runs 3 wire 5 cache 1 clock 50"
    ));
}

#[test]
fn step_3_with_a_bad_principal_in_its_message_is_a_matter_of_form() {
    let beginning = "
        HD n=3 Ls=1 La=1 => ok
        TM 0 L=0 => 0 new
        TM 0 L=1 => 1 new
        TM 2 L=64 => 2 new
        TM 5 L=1 R=2 => 3 new
        TM 5 L=0 R=2 => 4 new";
    check_each(
        beginning,
        &[
            "TM 5 L=0 R=3 => 5 new
         ST 3 m=5 => refused 14",
            "TM 5 L=1 R=4 => 5 new
         ST 3 m=5 => refused 14",
            "TM 5 L=1 R=3 => 5 new
         ST 3 m=5 => refused 14",
        ],
    );
}

#[test]
fn a_refused_record_changes_nothing() {
    check(&format!(
        "{EXCHANGE}
         TM 0 L=5 => refused 6
         ST 1 a=1 b=1 => refused 6
         ST 7 t=7 m=1 => refused 5
         ST 3 m=3 => refused 14
         ST 9 run=0 => refused 11
         TM 1 L=0 R=7 => 18 new
         end runs 3 wire 4 cache 0 clock 0"
    ));
}
