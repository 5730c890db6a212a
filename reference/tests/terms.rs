//! Numbers of terms, forms of messages, and deep terms.

mod common;

use std::time::{Duration, Instant};

use common::{check, check_each, times, EXCHANGE};

#[test]
fn step_1_adds_its_terms_in_order() {
    check(
        "HD n=3 Ls=9 La=9 => ok
         ST 1 a=2 b=1 => ok 0 +5
         TM 0 L=2 => 0 old
         TM 0 L=1 => 1 old
         TM 2 L=0 => 2 old
         TM 5 L=1 R=2 => 3 old
         TM 5 L=0 R=3 => 4 old
         TM 1 => 5 new
         ST 1 a=2 b=1 => ok 1 +3
         TM 2 L=1 => 6 old
         TM 5 L=1 R=6 => 7 old
         TM 5 L=0 R=7 => 8 old",
    );
}

#[test]
fn step_3_adds_its_terms_in_order() {
    check(
        "HD n=3 Ls=9 La=9 => ok
         ST 7 t=65538 => ok - +0
         ST 1 a=1 b=2 => ok 0 +5
         ST 3 m=4 => ok 1 +11
         TM 4 L=1 => 5 old               # K
         TM 1 L=1 R=2 => 6 old           # Ts
         TM 5 L=6 R=2 => 7 old           # [Ts, N]
         TM 5 L=1 R=7 => 8 old           # [b, ..]
         TM 5 L=5 R=8 => 9 old           # [K, ..]
         TM 3 L=1 => 10 old              # a's key
         TM 6 L=9 R=10 => 11 old
         TM 5 L=0 R=6 => 12 old          # [a, Ts]
         TM 5 L=5 R=12 => 13 old         # [K, ..]
         TM 3 L=2 => 14 old              # b's key
         TM 6 L=13 R=14 => 15 old
         end runs 2 wire 3 cache 0 clock 65538",
    );
}

#[test]
fn steps_4_and_5_add_their_terms_in_order() {
    check(
        "HD n=3 Ls=9 La=9 => ok
         ST 1 a=1 b=2 => ok 0 +5
         ST 3 m=4 => ok 1 +11
         ST 7 t=3 => ok - +0
         ST 4 run=0 m=11 => ok 0 +3
         TM 1 R=3 => 16 old
         TM 5 L=0 R=16 => 17 old
         TM 6 L=17 R=5 => 18 old         # {a, Ta}K
         ST 2 a=1 b=2 => ok 2 +0
         TM 5 L=15 R=18 => 19 new
         ST 5 run=2 m=19 => ok 2 +1
         TM 6 L=16 R=5 => 20 old         # {Ta}K
         TM 0 L=0 => 21 new",
    );
}

#[test]
fn terms_present_before_keep_their_numbers() {
    check(
        "HD n=3 Ls=9 La=9 => ok
         TM 2 L=0 => 0 new
         TM 0 L=2 => 1 new
         ST 1 a=1 b=2 => ok 0 +3
         TM 0 L=1 => 2 old
         TM 5 L=1 R=0 => 3 old
         TM 5 L=2 R=3 => 4 old
         TM 1 => 5 new",
    );
}

#[test]
fn clock_and_derivation_add_no_terms() {
    check(
        "HD n=3 Ls=9 La=9 => ok
         ST 7 t=5 => ok - +0
         ST 2 a=1 b=2 => ok 0 +0
         ST 8 b=1 => ok - +0
         TM 1 R=5 => 0 new
         ST 10 m=0 => ok - +0
         TM 1 R=6 => 1 new",
    );
}

#[test]
fn the_server_takes_any_nonce() {
    let with_nonce = |nonce: u8, answer: &str| {
        check(&format!(
            "HD n=3 Ls=9 La=9 => ok
             TM 2 L={nonce} => 0 new
             TM 0 L=1 => 1 new
             TM 0 L=2 => 2 new
             TM 5 L=2 R=0 => 3 new
             TM 5 L=1 R=3 => 4 new
             ST 3 m=4 => {answer}"
        ));
    };
    with_nonce(64, "ok 0 +11");
    with_nonce(95, "ok 0 +11");
    with_nonce(63, "refused 15");
    with_nonce(0, "refused 15");
}

#[test]
fn the_server_answers_a_request_again() {
    check(&format!("{EXCHANGE}\nST 3 m=4 => ok 3 +5\nend runs 4 wire 6 cache 0 clock 0"));
}

/// Terms of a made part for initiator 1 (bad) of run 0, with the key 64.
const MADE: &str = "
    HD n=4 flags=0x0002 Ls=9 La=9 => ok
    ST 1 a=1 b=2 => ok 0 +5   # 0: 1, 1: 2, 2: nonce 0
    TM 4 L=64 => 5 new
    TM 1 R=7 => 6 new
    TM 3 L=1 => 7 new
    TM 3 L=2 => 8 new
    TM 4 L=1 => 9 new
    TM 0 L=3 => 10 new
    TM 2 L=64 => 11 new
    TM 5 L=6 R=2 => 12 new    # [7, nonce 0]
    TM 5 L=1 R=12 => 13 new   # [2, 7, nonce 0]
    TM 5 L=5 R=13 => 14 new   # [key 64, 2, 7, nonce 0]
";

#[test]
fn step_4_takes_a_key_of_the_intruder() {
    check(&format!(
        "{MADE}\nTM 6 L=14 R=7 => 15 new\nST 4 run=0 m=15 => ok 0 +3\nend runs 1 wire 2 cache 0 clock 0"
    ));
}

#[test]
fn step_4_takes_its_message_apart() {
    // Each wrong in one part.
    check_each(MADE, &[
        "ST 4 run=0 m=14 => refused 14",                                     // not locked
        "TM 6 L=14 R=8 => 15 new\nST 4 run=0 m=15 => refused 14",                // b's key
        "TM 6 L=14 R=9 => 15 new\nST 4 run=0 m=15 => refused 14",                // session key 1
        "TM 6 L=5 R=7 => 15 new\nST 4 run=0 m=15 => refused 14",                 // K alone
        "TM 5 L=7 R=13 => 15 new\nTM 6 L=15 R=7 => 16 new\nST 4 run=0 m=16 => refused 14", // K a long-term key
        "TM 5 L=11 R=13 => 15 new\nTM 6 L=15 R=7 => 16 new\nST 4 run=0 m=16 => refused 14", // K a nonce
        "TM 5 L=5 R=12 => 15 new\nTM 6 L=15 R=7 => 16 new\nST 4 run=0 m=16 => refused 14", // b left out
        "TM 5 L=10 R=12 => 15 new\nTM 5 L=5 R=15 => 16 new\nTM 6 L=16 R=7 => 17 new\nST 4 run=0 m=17 => refused 14", // b is 3
        "TM 5 L=6 R=11 => 15 new\nTM 5 L=1 R=15 => 16 new\nTM 5 L=5 R=16 => 17 new\nTM 6 L=17 R=7 => 18 new\nST 4 run=0 m=18 => refused 14", // nonce 64
        "TM 5 L=2 R=2 => 15 new\nTM 5 L=1 R=15 => 16 new\nTM 5 L=5 R=16 => 17 new\nTM 6 L=17 R=7 => 18 new\nST 4 run=0 m=18 => refused 14", // Ts a nonce
    ]);
}

#[test]
fn a_request_nests_to_the_right() {
    // [[1, 2], nonce 0]
    check(
        "HD n=3 Ls=9 La=9 => ok
         ST 1 a=1 b=2 => ok 0 +5
         TM 5 L=0 R=1 => 5 new
         TM 5 L=5 R=2 => 6 new
         ST 10 m=6 => ok - +0
         ST 3 m=6 => refused 14
         ST 3 m=4 => ok 1 +11",
    );
}

#[test]
fn step_3_takes_its_message_apart() {
    let beginning = "
        HD n=3 Ls=9 La=9 => ok
        ST 1 a=1 b=2 => ok 0 +5     # 3: [2, nonce 0]
        TM 3 L=1 => 5 new
        TM 4 L=0 => 6 new
        TM 1 R=1 => 7 new";
    check_each(
        beginning,
        &[
            "ST 3 m=0 => refused 14",
            "ST 3 m=3 => refused 14",
            "TM 5 L=0 R=2 => 8 new\nST 3 m=8 => refused 14",
            "TM 5 L=5 R=3 => 8 new\nST 3 m=8 => refused 14",
            "TM 5 L=5 R=2 => 8 new\nTM 5 L=0 R=8 => 9 new\nST 3 m=9 => refused 14",
            "TM 5 L=1 R=6 => 8 new\nTM 5 L=0 R=8 => 9 new\nST 3 m=9 => refused 14",
            "TM 5 L=1 R=7 => 8 new\nTM 5 L=0 R=8 => 9 new\nST 3 m=9 => refused 14",
            "TM 6 L=4 R=6 => 8 new\nST 3 m=8 => refused 14",
        ],
    );
}

#[test]
fn step_5_takes_its_message_apart() {
    // 15 the ticket, 16 the authenticator, 17 their pair, 9 the body for 1.
    let beginning = format!("{EXCHANGE}\nTM 4 L=7 => 18 new\nTM 0 L=3 => 19 new");
    check_each(&beginning, &[
        "ST 5 run=2 m=15 => refused 14",
        "ST 5 run=2 m=16 => refused 14",
        "TM 5 L=16 R=15 => 20 new\nST 5 run=2 m=20 => refused 14",
        "TM 5 L=11 R=16 => 20 new\nST 5 run=2 m=20 => refused 14", // the part for 1
        "TM 6 L=12 R=18 => 20 new\nTM 5 L=15 R=20 => 21 new\nST 5 run=2 m=21 => refused 14", // under key 7
        "TM 6 L=6 R=5 => 20 new\nTM 5 L=15 R=20 => 21 new\nST 5 run=2 m=21 => refused 14", // {Ta}K
        "TM 6 L=12 R=14 => 20 new\nTM 5 L=15 R=20 => 21 new\nST 5 run=2 m=21 => refused 14", // under b's key
        "TM 5 L=19 R=6 => 20 new\nTM 6 L=20 R=5 => 21 new\nTM 5 L=15 R=21 => 22 new\nST 5 run=2 m=22 => refused 14", // from 3
        "TM 5 L=0 R=1 => 20 new\nTM 6 L=20 R=5 => 21 new\nTM 5 L=15 R=21 => 22 new\nST 5 run=2 m=22 => refused 14", // Ta a principal
        "ST 2 a=3 b=2 => ok 3 +0\nST 5 run=3 m=17 => refused 14", // a run for 3
        "ST 2 a=2 b=1 => ok 3 +0\nST 5 run=3 m=17 => refused 14", // a run of 1
        "ST 2 a=1 b=3 => ok 3 +0\nST 5 run=3 m=17 => refused 14", // a run of 3
    ]);
}

#[test]
fn step_6_takes_its_own_values_only() {
    let beginning =
        format!("{EXCHANGE}\nST 9 run=1 => ok 1 +0\nTM 4 L=64 => 18 new\nTM 1 R=1 => 19 new");
    check_each(
        &beginning,
        &[
            "TM 6 L=6 R=5 => 20 new\nST 6 run=0 m=20 => ok 0 +0",
            "TM 6 L=6 R=18 => 20 new\nST 6 run=0 m=20 => refused 14",
            "TM 6 L=19 R=5 => 20 new\nST 6 run=0 m=20 => refused 14",
            "TM 6 L=6 R=10 => 20 new\nST 6 run=0 m=20 => refused 14",
            "ST 6 run=0 m=16 => refused 14",
            "ST 6 run=0 m=6 => refused 14",
            "ST 6 run=0 m=5 => refused 14",
        ],
    );
}

#[test]
fn the_table_takes_512_terms() {
    check(&format!(
        "HD n=3 Ls=9 La=9 => ok
         {}
         TM 0 L=0 => refused 20
         TM 5 L=511 R=511 => refused 20
         TM 1 L=9 R=511 => 511 old
         TM 1 L=9 R=0 => 0 old
         TM 5 L=512 R=0 => refused 6
         ST 10 m=511 => ok - +0
         ST 10 m=512 => refused 6",
        times(0, 512)
    ));
}

/// Pairs of the term before with itself: as a tree the last has 2 to the power
/// of 510 leaves.
fn doubled(first: usize, end: usize) -> String {
    (first..end)
        .map(|number| format!("TM 5 L={} R={} => {number} new\n", number - 1, number - 1))
        .collect()
}

#[test]
fn deep_shared_terms_take_no_time() {
    let start = Instant::now();
    check(&format!(
        "HD n=3 Ls=9 La=9 => ok
         TM 0 L=1 => 0 new
         {}
         TM 5 L=510 R=510 => 511 new
         TM 5 L=511 R=511 => refused 20
         ST 10 m=511 => ok - +0
         ST 3 m=511 => refused 14
         ST 2 a=1 b=2 => ok 0 +0
         ST 5 run=0 m=511 => refused 14",
        doubled(1, 511)
    ));
    check(&format!(
        "HD n=3 Ls=9 La=9 => ok
         TM 2 L=1 => 0 new
         {}
         TM 5 L=510 R=510 => 511 new
         ST 10 m=511 => refused 15
         ST 10 m=0 => refused 15",
        doubled(1, 511)
    ));
    assert!(start.elapsed() < Duration::from_secs(20));
}

#[test]
fn a_deep_chain_of_locks_needs_every_key() {
    // Locks under key 64 again and again; then one under the server's key 0.
    let chain = |first: usize, end: usize| -> String {
        (first..end).map(|number| format!("TM 6 L={} R=0 => {number} new\n", number - 1)).collect()
    };
    check(&format!(
        "HD n=3 Ls=9 La=9 => ok
         TM 4 L=64 => 0 new
         TM 4 L=0 => 1 new
         TM 0 L=1 => 2 new
         {}
         ST 10 m=299 => ok - +0
         TM 6 L=299 R=1 => 300 new
         {}
         ST 10 m=511 => refused 15
         ST 10 m=299 => ok - +0",
        chain(3, 300),
        chain(301, 512)
    ));
}
