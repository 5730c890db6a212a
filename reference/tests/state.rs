//! Refusals 11 to 20 and 22: each alone, and which comes first of two.

mod common;

use common::{check, check_each, responders, times, EXCHANGE};

/// The exchange after step 5; term 18 is the answer {Ta}K.
fn accepted() -> String {
    format!("{EXCHANGE}\nST 5 run=2 m=17 => ok 2 +1")
}

#[test]
fn steps_need_their_role_and_stage() {
    // Runs: 0 initiator after 4, 1 server, 2 responder opened, 3 initiator opened.
    let beginning = format!("{EXCHANGE}\nST 1 a=1 b=2 => ok 3 +3");
    check_each(
        &beginning,
        &[
            "ST 4 run=0 m=11 => refused 11",
            "ST 4 run=1 m=11 => refused 11",
            "ST 4 run=2 m=11 => refused 11",
            "ST 5 run=0 m=17 => refused 11",
            "ST 5 run=1 m=17 => refused 11",
            "ST 5 run=3 m=17 => refused 11",
            "ST 6 run=1 m=17 => refused 11",
            "ST 6 run=2 m=17 => refused 11",
            "ST 6 run=3 m=17 => refused 11",
            "ST 9 run=0 => refused 11",
            "ST 9 run=2 => refused 11",
            "ST 9 run=3 => refused 11",
        ],
    );
}

#[test]
fn runs_that_are_done_take_no_more_steps() {
    let beginning = format!("{}\nST 6 run=0 m=18 => ok 0 +0", accepted());
    check_each(
        &beginning,
        &[
            "ST 4 run=0 m=11 => refused 11",
            "ST 6 run=0 m=18 => refused 11",
            "ST 5 run=2 m=17 => refused 11",
            "ST 6 run=2 m=18 => refused 11",
            "ST 9 run=0 => refused 11",
            "ST 9 run=2 => refused 11",
        ],
    );
}

#[test]
fn a_wrong_stage_comes_before_a_wrong_form() {
    check_each(
        EXCHANGE,
        &[
            "ST 4 run=0 m=0 => refused 11",
            "ST 5 run=0 m=0 => refused 11",
            "ST 6 run=2 m=0 => refused 11",
        ],
    );
}

#[test]
fn the_65th_run_is_refused() {
    let beginning =
        format!("HD n=3 Ls=9 La=9 => ok\nST 1 a=1 b=2 => ok 0 +5\n{}", responders(1, 64));
    check_each(
        &beginning,
        &[
            "ST 1 a=1 b=2 => refused 13\nend runs 64 wire 1 cache 0 clock 0",
            "ST 2 a=1 b=2 => refused 13\nend runs 64 wire 1 cache 0 clock 0",
            "ST 3 m=4 => refused 13\nend runs 64 wire 1 cache 0 clock 0",
            "ST 3 m=0 => refused 13",
            "TM 2 L=9 => 5 new
         TM 5 L=1 R=5 => 6 new
         TM 5 L=0 R=6 => 7 new
         ST 3 m=7 => refused 13",
        ],
    );
}

#[test]
fn the_64th_run_is_opened_by_each_step() {
    let beginning =
        format!("HD n=3 Ls=9 La=9 => ok\nST 1 a=1 b=2 => ok 0 +5\n{}", responders(1, 63));
    check_each(
        &beginning,
        &[
            "ST 1 a=1 b=2 => ok 63 +3\nend runs 64 wire 2 cache 0 clock 0",
            "ST 2 a=1 b=2 => ok 63 +0\nend runs 64 wire 1 cache 0 clock 0",
            "ST 3 m=4 => ok 63 +11\nend runs 64 wire 3 cache 0 clock 0",
        ],
    );
}

#[test]
fn all_runs_taken_comes_before_a_full_table() {
    let filled = format!("{}\nST 1 a=1 b=2 => refused 13", times(0, 512));
    check(&format!("HD n=3 Ls=9 La=9 => ok\n{}{filled}", responders(0, 64)));
}

#[test]
fn a_wrong_form_comes_before_what_cannot_be_derived() {
    // Term 18, the key of 3, can neither be derived nor is it any step's form.
    let beginning = format!(
        "{EXCHANGE}\nTM 3 L=3 => 18 new\nST 1 a=1 b=2 => ok 3 +3\nST 10 m=18 => refused 15"
    );
    check_each(
        &beginning,
        &[
            "ST 3 m=18 => refused 14",
            "ST 4 run=3 m=18 => refused 14",
            "ST 5 run=2 m=18 => refused 14",
            "ST 6 run=0 m=18 => refused 14",
        ],
    );
}

#[test]
fn what_cannot_be_derived_comes_before_the_lives() {
    // {K, 2, 0, nonce 3} under the key of 1 was not sent; then all lives end.
    check(&format!(
        "{EXCHANGE}
         ST 1 a=1 b=2 => ok 3 +3   # terms 18 nonce, 19, 20
         TM 5 L=6 R=18 => 21 new
         TM 5 L=1 R=21 => 22 new
         TM 5 L=5 R=22 => 23 new
         TM 6 L=23 R=10 => 24 new
         ST 4 run=3 m=24 => refused 15
         TM 6 L=6 R=5 => 25 new    # the answer, not sent yet
         ST 6 run=0 m=25 => refused 15
         ST 7 t=1000 => ok - +0
         ST 4 run=3 m=24 => refused 15
         ST 6 run=0 m=25 => refused 15
         ST 9 run=1 => ok 1 +0
         ST 6 run=0 m=25 => refused 16"
    ));
}

#[test]
fn the_ticket_comes_before_the_authenticator() {
    check_each(
        EXCHANGE,
        &[
            "ST 7 t=100 => ok - +0
         ST 5 run=2 m=17 => refused 16",
            "ST 7 t=99 => ok - +0
         ST 5 run=2 m=17 => refused 17",
        ],
    );
}

#[test]
fn the_authenticators_life_comes_before_the_cache() {
    let beginning = format!("{}\nST 2 a=1 b=2 => ok 3 +0", accepted());
    check_each(
        &beginning,
        &[
            "ST 7 t=9 => ok - +0
         ST 5 run=3 m=17 => refused 18",
            "ST 7 t=10 => ok - +0
         ST 5 run=3 m=17 => refused 17",
        ],
    );
}

#[test]
fn sums_of_times_do_not_wrap() {
    // The clock is 4,294,967,290 and both lives are 10: nothing ever ends.
    let clock = 4294967290u32;
    let beginning = EXCHANGE.replace(
        "HD n=5 Ls=100 La=10 => ok",
        &format!("HD n=5 Ls=10 La=10 => ok\nST 7 t={clock} => ok - +0"),
    );
    check_each(
        &beginning,
        &[
            "ST 5 run=2 m=17 => ok 2 +1",
            "ST 7 t=4294967295 => ok - +0
         ST 5 run=2 m=17 => ok 2 +1
         ST 6 run=0 m=18 => ok 0 +0
         ST 8 b=2 => ok - +0
         end runs 3 wire 5 cache 1 clock 4294967295",
            "ST 1 a=1 b=2 => ok 3 +3        # 18, 19, 20
         ST 3 m=20 => ok 4 +7
         ST 7 t=4294967295 => ok - +0
         ST 4 run=3 m=25 => ok 3 +3",
        ],
    );
}

#[test]
fn the_longest_lives() {
    let header = "HD n=5 Ls=4294967295 La=4294967295 => ok";
    let beginning = EXCHANGE.replace("HD n=5 Ls=100 La=10 => ok", header);
    check_each(
        &beginning,
        &[
            "ST 7 t=4294967294 => ok - +0\nST 5 run=2 m=17 => ok 2 +1",
            "ST 7 t=4294967295 => ok - +0\nST 5 run=2 m=17 => refused 16",
        ],
    );
}

/// The exchange with these lives and at this clock, its server's key leaked. Then
/// the intruder dates an authenticator; the delivery is term 21.
fn dated(ls: u32, la: u32, clock: u32, ta: u32) -> String {
    let header = format!("HD n=5 Ls={ls} La={la} => ok\nST 7 t={clock} => ok - +0");
    format!(
        "{}
         ST 9 run=1 => ok 1 +0
         TM 1 L={} R={} => 18 new
         TM 5 L=0 R=18 => 19 new
         TM 6 L=19 R=5 => 20 new
         TM 5 L=15 R=20 => 21 new",
        EXCHANGE.replace("HD n=5 Ls=100 La=10 => ok", &header),
        ta >> 16,
        ta & 0xffff,
    )
}

#[test]
fn a_time_at_clock_and_life_passes_and_the_next_does_not() {
    let top = u32::MAX;
    let taken = [
        (100, 10, 0, 10),
        (100, 1, 0, 1),
        (100, 10, 7, 17),
        (5, 10, 7, 17),
        (100, 10, top - 10, top),
        (100, top, 0, top),
        // The sum is past 32 bits.
        (100, 10, top - 5, top),
        (100, top, top - 1, top),
    ];
    for (ls, la, clock, ta) in taken {
        check(&format!("{}\nST 5 run=2 m=21 => ok 2 +1", dated(ls, la, clock, ta)));
    }
    let turned_away = [
        (100, 10, 0, 11),
        (100, 1, 0, 2),
        (100, 10, 7, 18),
        (5, 10, 7, 18),
        (100, 10, 0, top),
        (100, 10, top - 11, top),
        (100, top - 1, 0, top),
    ];
    for (ls, la, clock, ta) in turned_away {
        check(&format!(
            "{}
             ST 5 run=2 m=21 => refused 22
             end runs 3 wire 5 cache 0 clock {clock}",
            dated(ls, la, clock, ta),
        ));
    }
}

#[test]
fn a_time_that_was_ahead_is_taken_once_the_clock_is_near() {
    check(&format!(
        "{}
         ST 5 run=2 m=21 => refused 22
         ST 7 t=9 => ok - +0
         ST 5 run=2 m=21 => refused 22
         ST 7 t=10 => ok - +0
         ST 5 run=2 m=21 => ok 2 +1
         ST 7 t=29 => ok - +0
         ST 8 b=2 => ok - +0
         ST 2 a=1 b=2 => ok 3 +0
         ST 5 run=3 m=21 => refused 18
         ST 7 t=30 => ok - +0
         ST 5 run=3 m=21 => refused 17
         ST 8 b=2 => ok - +0
         end runs 4 wire 6 cache 0 clock 30",
        dated(100, 10, 0, 20),
    ));
}

#[test]
fn a_time_ahead_comes_after_the_ticket() {
    let beginning = dated(5, 10, 0, 100);
    check_each(
        &beginning,
        &[
            "ST 7 t=4 => ok - +0\nST 5 run=2 m=21 => refused 22",
            "ST 7 t=5 => ok - +0\nST 5 run=2 m=21 => refused 16",
        ],
    );
}

#[test]
fn a_time_ahead_comes_before_a_full_table() {
    let beginning = format!("{}\n{}", dated(100, 10, 0, 11), times(22, 512));
    check_each(
        &beginning,
        &["ST 5 run=2 m=21 => refused 22", "ST 7 t=1 => ok - +0\nST 5 run=2 m=21 => refused 20"],
    );
}
