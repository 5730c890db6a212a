//! Runs, the replay cache, leaks and the wire.

mod common;

use common::{check, check_each, EXCHANGE};

#[test]
fn the_server_leaks_again_and_again() {
    check(&format!(
        "{EXCHANGE}
         ST 9 run=1 => ok 1 +0
         ST 9 run=1 => ok 1 +0
         end runs 3 wire 5 cache 0 clock 0"
    ));
}

#[test]
fn a_leaked_key_lets_the_intruder_answer() {
    check(&format!(
        "{EXCHANGE}
         TM 6 L=6 R=5 => 18 new
         ST 10 m=5 => refused 15
         ST 10 m=9 => refused 15
         ST 6 run=0 m=18 => refused 15
         ST 9 run=1 => ok 1 +0
         ST 10 m=5 => ok - +0
         ST 6 run=0 m=18 => ok 0 +0
         end runs 3 wire 5 cache 0 clock 0"
    ));
}

#[test]
fn a_lock_not_seen_needs_its_key() {
    // {2, 0}K: the body can be made, the key cannot.
    check(&format!(
        "{EXCHANGE}
         TM 5 L=1 R=6 => 18 new
         TM 6 L=18 R=5 => 19 new
         ST 10 m=18 => ok - +0
         ST 10 m=19 => refused 15
         ST 10 m=16 => ok - +0         # the authenticator was seen
         ST 9 run=1 => ok 1 +0
         ST 10 m=19 => ok - +0"
    ));
}

#[test]
fn bad_principals_give_their_keys_away() {
    // 1 is bad: its part is opened, and with the key in it the authenticator.
    check(
        "HD n=3 flags=0x0002 Ls=9 La=9 => ok
         ST 1 a=1 b=2 => ok 0 +5
         ST 3 m=4 => ok 1 +11
         ST 10 m=10 => ok - +0      # key of 1
         ST 10 m=5 => ok - +0       # K
         ST 10 m=13 => ok - +0      # the ticket's body
         ST 10 m=14 => refused 15   # key of 2
         TM 1 R=5 => 16 new
         TM 6 L=16 R=5 => 17 new
         ST 10 m=17 => ok - +0
         TM 6 L=13 R=10 => 18 new
         ST 10 m=18 => ok - +0
         TM 6 L=9 R=14 => 19 new
         ST 10 m=19 => refused 15",
    );
}

#[test]
fn a_bad_responder_opens_its_ticket() {
    check(
        "HD n=3 flags=0x0004 Ls=9 La=9 => ok
         ST 1 a=1 b=2 => ok 0 +5
         ST 3 m=4 => ok 1 +11
         ST 10 m=5 => ok - +0       # K
         ST 10 m=9 => ok - +0       # [K, 2, Ts, nonce 0]
         ST 10 m=10 => refused 15   # key of 1
         ST 10 m=11 => ok - +0      # seen",
    );
}

#[test]
fn halves_of_what_was_sent_are_known() {
    check(
        "HD n=3 Ls=9 La=9 => ok
         TM 2 L=0 => 0 new
         ST 10 m=0 => refused 15
         ST 1 a=1 b=2 => ok 0 +4
         ST 10 m=0 => ok - +0
         TM 5 L=0 R=0 => 5 new
         ST 10 m=5 => ok - +0",
    );
}

#[test]
fn terms_alone_give_the_intruder_nothing() {
    check(
        "HD n=3 Ls=9 La=9 => ok
         TM 2 L=63 => 0 new
         TM 4 L=63 => 1 new
         TM 2 L=64 => 2 new
         TM 4 L=64 => 3 new
         TM 2 L=95 => 4 new
         TM 4 L=95 => 5 new
         ST 10 m=0 => refused 15
         ST 10 m=1 => refused 15
         ST 10 m=2 => ok - +0
         ST 10 m=3 => ok - +0
         ST 10 m=4 => ok - +0
         ST 10 m=5 => ok - +0
         TM 5 L=2 R=0 => 6 new
         TM 5 L=1 R=3 => 7 new
         TM 6 L=2 R=1 => 8 new
         TM 6 L=1 R=3 => 9 new
         ST 10 m=6 => refused 15
         ST 10 m=7 => refused 15
         ST 10 m=8 => refused 15
         ST 10 m=9 => refused 15
         end runs 0 wire 0 cache 0 clock 0",
    );
}

#[test]
fn sending_a_term_twice_counts_once() {
    // The intruder gives two runs of the bad initiator 1 his key 64; both send
    // the same authenticator {1, 0}64.
    check(
        "HD n=3 flags=0x0002 Ls=9 La=9 => ok
         ST 1 a=1 b=2 => ok 0 +5   # 0: 1, 1: 2, 2: nonce 0
         ST 1 a=1 b=2 => ok 1 +3   # 5: nonce 1
         TM 4 L=64 => 8 new
         TM 3 L=1 => 9 new
         TM 1 => 10 new
         TM 5 L=10 R=2 => 11 new
         TM 5 L=1 R=11 => 12 new
         TM 5 L=8 R=12 => 13 new
         TM 6 L=13 R=9 => 14 new
         TM 5 L=10 R=5 => 15 new
         TM 5 L=1 R=15 => 16 new
         TM 5 L=8 R=16 => 17 new
         TM 6 L=17 R=9 => 18 new
         ST 4 run=0 m=14 => ok 0 +2
         ST 4 run=1 m=18 => ok 1 +0
         end runs 2 wire 3 cache 0 clock 0",
    );
}

#[test]
fn the_own_nonce_is_that_of_the_run() {
    // The part for run 0 does not fit run 2 with the same two principals.
    check(
        "HD n=3 Ls=9 La=9 => ok
         ST 1 a=1 b=2 => ok 0 +5
         ST 3 m=4 => ok 1 +11
         ST 1 a=1 b=2 => ok 2 +3
         ST 4 run=2 m=11 => refused 14
         ST 4 run=0 m=11 => ok 0 +1",
    );
}

/// Responders 2 and 3 are bad; tickets and authenticators with the keys 64 and
/// 65. Terms: 0 and 1 principals 1 and 4, 2 and 3 keys 64 and 65, 4 time 0,
/// 5 and 6 keys of 2 and 3.
const BAD: &str = "
    HD n=5 flags=0x000c Ls=9 La=9 => ok
    TM 0 L=1 => 0 new
    TM 0 L=4 => 1 new
    TM 4 L=64 => 2 new
    TM 4 L=65 => 3 new
    TM 1 => 4 new
    TM 3 L=2 => 5 new
    TM 3 L=3 => 6 new
    TM 5 L=0 R=4 => 7 new        # [1, 0]
    TM 5 L=2 R=7 => 8 new        # [64, 1, 0]
    TM 6 L=8 R=5 => 9 new        # ticket of 1 for 2
    TM 6 L=7 R=2 => 10 new       # authenticator of 1
    TM 5 L=9 R=10 => 11 new
    ST 2 a=1 b=2 => ok 0 +0
    ST 5 run=0 m=11 => ok 0 +1   # 12: the answer
";

#[test]
fn entries_of_one_responder_collide_for_different_initiators() {
    check(&format!(
        "{BAD}
         TM 5 L=1 R=4 => 13 new      # [4, 0]
         TM 5 L=2 R=13 => 14 new
         TM 6 L=14 R=5 => 15 new
         TM 6 L=13 R=2 => 16 new
         TM 5 L=15 R=16 => 17 new
         ST 2 a=4 b=2 => ok 1 +0
         ST 5 run=1 m=17 => refused 18
         end runs 2 wire 1 cache 1 clock 0"
    ));
}

#[test]
fn entries_of_different_responders_or_keys_do_not_collide() {
    check_each(
        BAD,
        &[
            "TM 6 L=8 R=6 => 13 new      # ticket of 1 for 3, the same key and time
         TM 5 L=13 R=10 => 14 new
         ST 2 a=1 b=3 => ok 1 +0
         ST 5 run=1 m=14 => ok 1 +0
         end runs 2 wire 1 cache 2 clock 0",
            "TM 5 L=3 R=7 => 13 new      # another key
         TM 6 L=13 R=5 => 14 new
         TM 6 L=7 R=3 => 15 new
         TM 5 L=14 R=15 => 16 new
         ST 2 a=1 b=2 => ok 1 +0
         ST 5 run=1 m=16 => ok 1 +1
         end runs 2 wire 2 cache 2 clock 0",
            "TM 1 R=1 => 13 new          # another Ta
         TM 5 L=0 R=13 => 14 new
         TM 6 L=14 R=2 => 15 new
         TM 5 L=9 R=15 => 16 new
         ST 2 a=1 b=2 => ok 1 +0
         ST 5 run=1 m=16 => ok 1 +1
         end runs 2 wire 2 cache 2 clock 0",
            "TM 1 R=1 => 13 new          # another Ts is the same entry
         TM 5 L=0 R=13 => 14 new
         TM 5 L=2 R=14 => 15 new
         TM 6 L=15 R=5 => 16 new
         TM 5 L=16 R=10 => 17 new
         ST 2 a=1 b=2 => ok 1 +0
         ST 5 run=1 m=17 => refused 18",
        ],
    );
}

#[test]
fn forgetting_is_for_one_responder() {
    let beginning = format!(
        "{BAD}
         TM 6 L=8 R=6 => 13 new
         TM 5 L=13 R=10 => 14 new
         ST 2 a=1 b=3 => ok 1 +0
         ST 5 run=1 m=14 => ok 1 +0
         ST 7 t=9 => ok - +0"
    );
    check_each(
        &beginning,
        &[
            "ST 8 b=1 => ok - +0\nend runs 2 wire 1 cache 2 clock 9",
            "ST 8 b=2 => ok - +0\nend runs 2 wire 1 cache 1 clock 9",
            "ST 8 b=3 => ok - +0\nend runs 2 wire 1 cache 1 clock 9",
            "ST 8 b=3 => ok - +0\nST 8 b=2 => ok - +0\nend runs 2 wire 1 cache 0 clock 9",
        ],
    );
}

#[test]
fn a_refused_delivery_does_not_block_a_later_one() {
    // At clock 0 the authenticator cannot be made; after the leak it can.
    check(&format!(
        "{EXCHANGE}
         TM 1 R=3 => 18 new
         TM 5 L=0 R=18 => 19 new
         TM 6 L=19 R=5 => 20 new
         TM 5 L=15 R=20 => 21 new
         ST 5 run=2 m=21 => refused 15
         ST 9 run=1 => ok 1 +0
         ST 5 run=2 m=21 => ok 2 +1
         end runs 3 wire 6 cache 1 clock 0"
    ));
}

#[test]
fn the_clock_reaches_its_end_and_stays() {
    check(
        "HD n=3 Ls=1 La=1 => ok
         ST 7 t=0 => ok - +0
         ST 7 t=4294967295 => ok - +0
         ST 7 t=4294967295 => ok - +0
         ST 7 t=4294967294 => refused 12
         ST 7 t=0 => refused 12
         end runs 0 wire 0 cache 0 clock 4294967295",
    );
}

#[test]
fn derivation_changes_nothing() {
    check(&format!("{EXCHANGE}\nST 10 m=4 => ok - +0\nend runs 3 wire 4 cache 0 clock 0"));
}

#[test]
fn the_listing_names_the_run_of_each_step() {
    check(
        "HD n=3 Ls=100 La=10 => ok
         ST 2 a=2 b=1    => ok 0 +0
         ST 1 a=1 b=2    => ok 1 +5
         ST 3 m=4        => ok 2 +11
         ST 9 run=2      => ok 2 +0
         ST 4 run=1 m=11 => ok 1 +1
         ST 7 t=1        => ok - +0
         ST 8 b=1        => ok - +0
         ST 10 m=0       => ok - +0",
    );
}
