//! Refusals 19 and 20: the replay cache and the term table full, and almost.

mod common;

use common::{check, check_each, times, EXCHANGE};

/// 1 and 2 are bad, so the intruder makes the ticket, with his key 64 and time
/// 900, and the authenticators with Ta 0 to 15; entry i comes with run i.
/// Terms: 0 key 64, 1 principal 1, 6 the ticket, then 5 terms a delivery.
fn full_cache() -> String {
    let mut text = String::from(
        "HD n=4 flags=0x0006 Ls=100 La=20 => ok
         TM 4 L=64 => 0 new
         TM 0 L=1 => 1 new
         TM 1 R=900 => 2 new
         TM 5 L=1 R=2 => 3 new
         TM 5 L=0 R=3 => 4 new
         TM 3 L=2 => 5 new
         TM 6 L=4 R=5 => 6 new\n",
    );
    for i in 0..16 {
        text += &delivery(i, &format!("ok {i} +1"));
    }
    text
}

/// The terms of delivery i: time i, the pair with 1, the authenticator, the
/// delivery, and the answer that step 5 adds.
fn first_term(i: usize) -> usize {
    7 + 5 * i
}

fn delivered(i: usize) -> usize {
    first_term(i) + 3
}

fn delivery(i: usize, answer: &str) -> String {
    let time = first_term(i);
    let (pair, lock, delivery) = (time + 1, time + 2, time + 3);
    format!(
        "TM 1 R={i} => {time} new
         TM 5 L=1 R={time} => {pair} new
         TM 6 L={pair} R=0 => {lock} new
         TM 5 L=6 R={lock} => {delivery} new
         ST 2 a=1 b=2 => ok {i} +0
         ST 5 run={i} m={delivery} => {answer}\n"
    )
}

#[test]
fn the_17th_entry_is_refused() {
    let text = format!("{}{}", full_cache(), delivery(16, "refused 19"));
    check(&format!("{text}end runs 17 wire 16 cache 16 clock 0"));
}

#[test]
fn a_replay_on_a_full_cache_is_a_replay() {
    let (again, beginning) = (delivered(3), full_cache());
    check(&format!("{beginning}ST 2 a=1 b=2 => ok 16 +0\nST 5 run=16 m={again} => refused 18"));
}

#[test]
fn an_old_delivery_on_a_full_cache_is_old() {
    let beginning = format!("{}{}", full_cache(), delivery(16, "refused 19"));
    let m = delivered(16);
    check_each(
        &beginning,
        &[
            &format!("ST 7 t=36 => ok - +0\nST 5 run=16 m={m} => refused 17"),
            &format!("ST 7 t=35 => ok - +0\nST 5 run=16 m={m} => refused 19"),
            &format!("ST 7 t=1000 => ok - +0\nST 5 run=16 m={m} => refused 16"),
        ],
    );
}

#[test]
fn a_time_ahead_comes_before_a_full_cache() {
    let dated = delivery(16, "refused 22").replace("TM 1 R=16", "TM 1 R=21");
    let m = delivered(16);
    check(&format!(
        "{}{dated}
         ST 7 t=1 => ok - +0
         ST 5 run=16 m={m} => refused 19
         end runs 17 wire 16 cache 16 clock 1",
        full_cache(),
    ));
}

#[test]
fn forgotten_entries_free_their_places() {
    // A delivery refused with 19 leaves no trace: it is taken later.
    let beginning = format!("{}{}", full_cache(), delivery(16, "refused 19"));
    let m = delivered(16);
    check(&format!(
        "{beginning}
         ST 7 t=19 => ok - +0
         ST 8 b=2 => ok - +0
         ST 5 run=16 m={m} => refused 19
         ST 7 t=21 => ok - +0
         ST 5 run=16 m={m} => refused 19
         ST 8 b=1 => ok - +0
         ST 5 run=16 m={m} => refused 19
         ST 8 b=2 => ok - +0            # Ta 0 and 1 go
         ST 5 run=16 m={m} => ok 16 +1
         end runs 17 wire 17 cache 15 clock 21"
    ));
}

#[test]
fn a_full_cache_comes_before_a_full_table() {
    let beginning = format!("{}{}", full_cache(), delivery(16, "refused 19"));
    let filled = times(first_term(16) + 4, 512);
    let m = delivered(16);
    check_each(
        &format!("{beginning}{filled}"),
        &[
            &format!("ST 5 run=16 m={m} => refused 19"),
            &format!("ST 7 t=20 => ok - +0\nST 8 b=2 => ok - +0\nST 5 run=16 m={m} => refused 20"),
        ],
    );
}

#[test]
fn exactly_the_missing_terms_must_fit() {
    // Step 1 needs 5 terms here, step 3 then 11, step 4 one, step 5 one.
    let header = "HD n=3 Ls=100 La=10 => ok\n";
    let one = "ST 1 a=1 b=2 => ok 0 +5\n";
    let three = "ST 3 m=4 => ok 1 +11\n";
    let four = "ST 4 run=0 m=11 => ok 0 +1\n";
    let two = "ST 2 a=1 b=2 => ok 2 +0\nTM 5 L=15 R=16 => 17 new\n";
    let cases = [
        (String::new(), 0, 5, "ST 1 a=1 b=2", "ok 0 +5"),
        (one.to_string(), 5, 11, "ST 3 m=4", "ok 1 +11"),
        (format!("{one}{three}"), 16, 1, "ST 4 run=0 m=11", "ok 0 +1"),
        (format!("{one}{three}{four}{two}"), 18, 1, "ST 5 run=2 m=17", "ok 2 +1"),
    ];
    for (before, count, needed, step, answer) in cases {
        let fits = times(count, 512 - needed);
        check(&format!("{header}{before}{fits}{step} => {answer}\nTM 1 L=7 => refused 20"));
        let short = times(count, 512 - needed + 1);
        check(&format!("{header}{before}{short}{step} => refused 20\n"));
    }
}

#[test]
fn a_term_needed_twice_counts_once() {
    // With the clock at 7 step 3 needs: K, time 7, [7, N], [2, ..], [K, ..], key
    // of 1, lock, [1, 7], [K, ..], key of 2, lock: 11, and time 7 and K once each.
    let beginning = "HD n=3 Ls=100 La=10 => ok\nST 7 t=7 => ok - +0\nST 1 a=1 b=2 => ok 0 +5\n";
    check(&format!("{beginning}{}ST 3 m=4 => ok 1 +11\nTM 1 L=7 => refused 20", times(5, 501)));
    check(&format!("{beginning}{}ST 3 m=4 => refused 20", times(5, 502)));
}

#[test]
fn a_full_table_lets_steps_pass_that_add_nothing() {
    // What steps 1, 4 and 5 send is spelt out before.
    let spelt = "
        TM 6 L=6 R=5 => 18 new    # the answer
        TM 2 L=3 => 19 new
        TM 5 L=1 R=19 => 20 new
        TM 5 L=0 R=20 => 21 new   # the request of run 3\n";
    check(&format!(
        "{EXCHANGE}{spelt}{}
         TM 1 L=7 => refused 20
         TM 6 L=6 R=5 => 18 old
         ST 5 run=2 m=17 => ok 2 +0
         ST 6 run=0 m=18 => ok 0 +0
         ST 1 a=1 b=2 => ok 3 +0
         ST 1 a=1 b=2 => refused 20
         ST 2 a=1 b=2 => ok 4 +0
         ST 9 run=1 => ok 1 +0
         ST 7 t=3 => ok - +0
         ST 8 b=2 => ok - +0
         ST 10 m=511 => ok - +0
         end runs 5 wire 7 cache 1 clock 3",
        times(22, 512)
    ));
}

#[test]
fn a_full_table_comes_after_the_lives() {
    let beginning = "HD n=3 Ls=100 La=10 => ok\nST 1 a=1 b=2 => ok 0 +5\nST 3 m=4 => ok 1 +11\n";
    check(&format!(
        "{beginning}{}ST 7 t=100 => ok - +0\nST 4 run=0 m=11 => refused 16",
        times(16, 512)
    ));
    check(&format!(
        "{EXCHANGE}{}ST 7 t=10 => ok - +0\nST 5 run=2 m=17 => refused 17",
        times(18, 512)
    ));
}

#[test]
fn what_cannot_be_derived_comes_before_a_full_table() {
    // [1, 2, nonce 9], with a nonce that nobody sent.
    let beginning = "
        HD n=3 Ls=100 La=10 => ok
        ST 1 a=1 b=2 => ok 0 +5
        TM 2 L=9 => 5 new
        TM 5 L=1 R=5 => 6 new
        TM 5 L=0 R=6 => 7 new\n";
    check(&format!("{beginning}{}ST 3 m=7 => refused 15\nST 3 m=4 => refused 20", times(8, 512)));
}

#[test]
fn a_refused_step_adds_no_part_of_its_message() {
    let beginning = "HD n=3 Ls=100 La=10 => ok\nST 1 a=1 b=2 => ok 0 +5\n";
    check(&format!(
        "{beginning}{}
         ST 3 m=4 => refused 20
         TM 4 L=1 => 502 new
         end runs 1 wire 1 cache 0 clock 0",
        times(5, 502)
    ));
}

#[test]
fn step_2_adds_no_terms() {
    check(&format!("HD n=3 Ls=1 La=1 => ok\n{}ST 2 a=1 b=2 => ok 0 +0", times(0, 512)));
}
