//! The rule sets: an exchange under every mark, what X may be at step 4, the forms
//! of one set under another, and tables that name none.

mod common;

use common::{check, check_each, times, walk, EXCHANGE};
use reference::file::{read_header, read_records, Record, StepRecord, TermRecord};
use reference::listing;
use reference::marks::{format_of, mark};
use reference::realm::Answer;
use reference::refusal::Refusal;
use reference::tables::Tables;

/// Under H5 and H4 the tickets go by the initiator: the walks of both are alike.
const CARRIED: [&str; 2] = ["H5", "H4"];

/// Steps 1 and 3 of 1 and 2. The terms under both: 0 and 1 the principals, 2 the
/// nonce, 4 the request, 5 K, 6 time 0, 16 what the server sent. Under H5: 11 the
/// part for 1, 15 the ticket; under H4: 10 the ticket.
fn served(letters: &str, flags: u32) -> String {
    format!(
        "{letters} n=4 flags={flags} Ls=100 La=10 => ok
         ST 1 a=1 b=2    => ok 0 +5
         ST 3 m=4        => ok 1 +12\n"
    )
}

#[test]
fn an_exchange_goes_through_under_every_mark() {
    for letters in ["HD", "HW"] {
        check(
            &format!(
                "{EXCHANGE}
                 ST 5 run=2 m=17 => ok 2 +1
                 ST 6 run=0 m=18 => ok 0 +0
                 ST 2 a=1 b=2    => ok 3 +0
                 ST 5 run=3 m=17 => refused 18
                 end runs 4 wire 5 cache 1 clock 0"
            )
            .replace("HD", letters),
        );
    }
    for letters in CARRIED {
        check(&format!(
            "{}
             end runs 2 wire 2 cache 0 clock 0",
            served(letters, 0)
        ));
        check(&format!(
            "{}
             ST 4 run=0 m=16 => ok 0 +2
             ST 2 a=1 b=2    => ok 2 +0
             ST 5 run=2 m=18 => ok 2 +1
             ST 6 run=0 m=19 => ok 0 +0
             ST 2 a=1 b=2    => ok 3 +0
             ST 5 run=3 m=18 => refused 18
             end runs 4 wire 4 cache 1 clock 0",
            served(letters, 0)
        ));
    }
}

/// "each after its parts, left before right, body before key"
#[test]
fn terms_are_added_in_their_order() {
    let h5 = "
        TM 4 L=1       => 5 old
        TM 1           => 6 old
        TM 5 L=6 R=2   => 7 old    # [Ts, N]
        TM 5 L=1 R=7   => 8 old
        TM 5 L=5 R=8   => 9 old    # [K, b, Ts, N]
        TM 3 L=1       => 10 old
        TM 6 L=9 R=10  => 11 old   # the part for 1
        TM 5 L=0 R=6   => 12 old   # [a, Ts]
        TM 5 L=5 R=12  => 13 old
        TM 3 L=2       => 14 old
        TM 6 L=13 R=14 => 15 old   # the ticket
        TM 5 L=11 R=15 => 16 old
        ST 4 run=0 m=16 => ok 0 +2
        TM 6 L=12 R=5  => 17 old   # the authenticator
        TM 5 L=15 R=17 => 18 old";
    check(&format!("{}{h5}", served("H5", 0)));
    let h4 = "
        TM 4 L=1       => 5 old
        TM 1           => 6 old
        TM 5 L=0 R=6   => 7 old    # [a, Ts]
        TM 5 L=5 R=7   => 8 old
        TM 3 L=2       => 9 old
        TM 6 L=8 R=9   => 10 old   # the ticket
        TM 5 L=2 R=10  => 11 old   # [N, ticket]
        TM 5 L=6 R=11  => 12 old
        TM 5 L=1 R=12  => 13 old
        TM 5 L=5 R=13  => 14 old   # [K, b, Ts, N, ticket]
        TM 3 L=1       => 15 old
        TM 6 L=14 R=15 => 16 old
        ST 4 run=0 m=16 => ok 0 +2
        TM 6 L=7 R=5   => 17 old   # the authenticator
        TM 5 L=10 R=17 => 18 old";
    check(&format!("{}{h4}", served("H4", 0)));
}

/// The pair is on the wire, not its halves; the intruder takes it apart.
#[test]
fn halves_are_not_on_the_wire() {
    let listed = listing(&walk(&format!("{}ST 10 m=11\nST 10 m=15", served("H5", 0))));
    assert!(listed.ends_with("3 ST ok - +0\n4 ST ok - +0\nend runs 2 wire 2 cache 0 clock 0\n"));
    check(&format!(
        "{}
         ST 10 m=10      => refused 15   # within the part for 1
         ST 4 run=0 m=16 => ok 0 +2
         ST 10 m=10      => ok - +0
         ST 10 m=17      => ok - +0
         end runs 2 wire 3 cache 0 clock 0",
        served("H4", 0)
    ));
}

/// Ta may be another time than Ts; the parts that are present are not added again.
#[test]
fn step_4_adds_none_to_four() {
    for (letters, ticket) in [("H5", 15), ("H4", 10)] {
        let with_clock = format!("{}ST 7 t=3 => ok - +0\n", served(letters, 0));
        let known = [
            "TM 1 R=3 => 17 new".to_string(),
            "TM 5 L=0 R=17 => 18 new".to_string(),
            "TM 6 L=18 R=5 => 19 new".to_string(),
            format!("TM 5 L={ticket} R=19 => 20 new"),
        ];
        for count in 0..=known.len() {
            let known = known[..count].join("\n");
            let added = 4 - count;
            check(&format!("{with_clock}{known}\nST 4 run=0 m=16 => ok 0 +{added}"));
        }
    }
}

/// "any term X": the initiator sends it on as it stands, and the responder looks at
/// it first.
#[test]
fn any_term_is_sent_on_in_place_of_the_ticket() {
    for (x, told) in [(0, "a principal"), (4, "a pair"), (11, "the part itself"), (16, "the reply")]
    {
        let text = format!(
            "{}
             TM 5 L=11 R={x} => 17 new    # {told}
             ST 4 run=0 m=17 => ok 0 +2
             TM 5 L={x} R=18 => 19 old
             ST 2 a=1 b=2    => ok 2 +0
             ST 5 run=2 m=19 => refused 14
             TM 5 L=15 R=18  => 20 new    # the authenticator with the ticket
             ST 5 run=2 m=20 => ok 2 +1
             ST 6 run=0 m=21 => ok 0 +0
             end runs 3 wire 4 cache 1 clock 0",
            served("H5", 0)
        );
        check(&text);
    }
    // 1 is bad, so the intruder fills the last place of its part.
    check(&format!(
        "{}
         TM 5 L=2 R=2    => 17 new    # [N, N]
         TM 5 L=6 R=17   => 18 new
         TM 5 L=1 R=18   => 19 new
         TM 5 L=5 R=19   => 20 new
         TM 6 L=20 R=15  => 21 new    # X is the nonce
         ST 4 run=0 m=21 => ok 0 +2
         TM 5 L=2 R=22   => 23 old
         ST 2 a=1 b=2    => ok 2 +0
         ST 5 run=2 m=23 => refused 14
         TM 5 L=10 R=22  => 24 new
         ST 5 run=2 m=24 => ok 2 +1
         end runs 3 wire 4 cache 1 clock 0",
        served("H4", 2)
    ));
}

/// X has to be derivable, as the rest of m; where a is good the last place of its
/// part is the server's.
#[test]
fn x_is_derivable_with_m() {
    check(&format!(
        "{}
         TM 5 L=11 R=14  => 17 new    # the key of 2
         ST 4 run=0 m=17 => refused 15
         TM 5 L=11 R=5   => 18 new    # K
         ST 4 run=0 m=18 => refused 15
         ST 9 run=1      => ok 1 +0
         ST 4 run=0 m=18 => ok 0 +2
         ST 4 run=0 m=17 => refused 11",
        served("H5", 0)
    ));
    check(&format!(
        "{}
         TM 5 L=2 R=0    => 17 new
         TM 5 L=6 R=17   => 18 new
         TM 5 L=1 R=18   => 19 new
         TM 5 L=5 R=19   => 20 new
         TM 6 L=20 R=15  => 21 new
         ST 4 run=0 m=21 => refused 15",
        served("H4", 0)
    ));
}

/// Two exchanges: the parts of one with the ticket of the other.
#[test]
fn tickets_of_another_exchange_are_sent_on() {
    check(&format!(
        "{}
         ST 1 a=1 b=3    => ok 2 +4    # 17: 3, 18: nonce 2, 20: the request
         ST 3 m=20       => ok 3 +9    # 21: K, 25: the part for 1, 28: the ticket
         TM 5 L=11 R=28  => 30 new
         TM 5 L=25 R=15  => 31 new
         ST 4 run=0 m=31 => refused 14
         ST 4 run=2 m=31 => ok 2 +2    # 32: the authenticator
         ST 4 run=0 m=30 => ok 0 +2    # 34: the authenticator
         ST 2 a=1 b=2    => ok 4 +0
         ST 2 a=1 b=3    => ok 5 +0
         TM 5 L=15 R=32  => 33 old
         TM 5 L=28 R=34  => 35 old
         ST 5 run=4 m=33 => refused 14
         ST 5 run=5 m=35 => refused 14
         TM 5 L=15 R=34  => 36 new
         TM 5 L=28 R=32  => 37 new
         ST 5 run=4 m=36 => ok 4 +1
         ST 5 run=5 m=37 => ok 5 +1
         end runs 6 wire 8 cache 2 clock 0",
        served("H5", 0)
    ));
}

/// A pair that the server sent, taken apart and joined anew, is the same term.
#[test]
fn halves_joined_anew_are_the_pair() {
    check(&format!(
        "{}
         TM 5 L=11 R=15  => 16 old
         TM 5 L=15 R=11  => 17 new
         ST 4 run=0 m=17 => refused 14
         ST 4 run=0 m=16 => ok 0 +2
         TM 5 L=15 R=18  => 19 old
         TM 5 L=18 R=15  => 20 new
         ST 2 a=1 b=2    => ok 2 +0
         ST 5 run=2 m=20 => refused 14
         ST 5 run=2 m=19 => ok 2 +1",
        served("H5", 0)
    ));
}

/// 1 is bad, so that nothing but the form is in the way: its part alone, the pair
/// with the ticket, and the part with the ticket in it. The ticket is term 10.
#[test]
fn each_set_takes_its_own_form() {
    let forms = "
        TM 0 L=1       => 0 new
        TM 0 L=2       => 1 new
        TM 2 L=0       => 2 new
        TM 4 L=64      => 3 new
        TM 1           => 4 new
        TM 3 L=1       => 5 new
        TM 3 L=3       => 6 new
        TM 5 L=4 R=2   => 7 new
        TM 5 L=1 R=7   => 8 new
        TM 5 L=3 R=8   => 9 new     # [K, b, Ts, N]
        TM 6 L=9 R=6   => 10 new    # what stands for a ticket
        TM 6 L=9 R=5   => 11 new    # the part
        TM 5 L=11 R=10 => 12 new    # and the ticket
        TM 5 L=2 R=10  => 13 new
        TM 5 L=4 R=13  => 14 new
        TM 5 L=1 R=14  => 15 new
        TM 5 L=3 R=15  => 16 new
        TM 6 L=16 R=5  => 17 new    # the part with the ticket in it
        TM 5 L=17 R=10 => 18 new    # and the ticket again
        ST 1 a=1 b=2   => ok 0 +2\n";
    for (letters, own, added) in [("HD", 11, 2), ("HW", 11, 2), ("H5", 12, 3), ("H4", 17, 3)] {
        let header = format!("{letters} n=4 flags=10 Ls=100 La=10 => ok\n{forms}");
        for m in [11, 12, 17, 18] {
            let answer = if m == own { format!("ok 0 +{added}") } else { "refused 14".into() };
            check(&format!("{header}ST 4 run=0 m={m} => {answer}"));
        }
    }
}

/// Each part that the form fixes, and its order, as under HD.
#[test]
fn parts_that_do_not_fit_give_14() {
    let other_parts = [
        "ST 1 a=1 b=2 => ok 2 +3\nST 4 run=2 m=16 => refused 14   # the nonce of run 0",
        "ST 1 a=1 b=3 => ok 2 +4\nST 4 run=2 m=16 => refused 14   # b is another",
        "ST 1 a=3 b=2 => ok 2 +4\nST 4 run=2 m=16 => refused 14   # a's key is another",
        "ST 4 run=0 m=4 => refused 14",
        "ST 4 run=0 m=15 => refused 14",
    ];
    for letters in CARRIED {
        check_each(&served(letters, 0), &other_parts);
    }
}

/// 11, 14, 15, 16, 20 in this order.
#[test]
fn step_4_has_its_refusals_in_their_order() {
    for letters in CARRIED {
        let served = served(letters, 0);
        let full = times(17, 511);
        check_each(
            &served,
            &[
                "ST 4 run=1 m=4 => refused 11",
                "ST 7 t=99 => ok - +0\nST 4 run=0 m=16 => ok 0 +4",
                "ST 7 t=100 => ok - +0\nST 4 run=0 m=16 => refused 16\nST 4 run=0 m=4 => refused 14",
                &format!("{full}ST 4 run=0 m=16 => refused 20\nST 4 run=0 m=4 => refused 14"),
                &format!("{full}ST 7 t=100 => ok - +0\nST 4 run=0 m=16 => refused 16"),
                &format!("{}ST 4 run=0 m=16 => ok 0 +2\nST 9 run=1 => ok 1 +0", times(17, 510)),
            ],
        );
        let asked = format!("{letters} n=4 Ls=100 La=10 => ok\nST 1 a=1 b=2 => ok 0 +5\n");
        check_each(
            &asked,
            &[
                &format!("{}ST 3 m=4 => refused 20", times(5, 501)),
                &format!("{}ST 3 m=4 => ok 1 +12", times(5, 500)),
            ],
        );
    }
}

/// The principals of the whole range, bad ones among them.
#[test]
fn the_last_two_of_32_agree() {
    for letters in CARRIED {
        check(&format!(
            "{letters} n=32 flags=0x20000000 Ls=100 La=10 => ok
             ST 1 a=30 b=31  => ok 0 +5
             ST 3 m=4        => ok 1 +12
             ST 4 run=0 m=16 => ok 0 +2
             ST 2 a=30 b=31  => ok 2 +0
             ST 5 run=2 m=18 => ok 2 +1
             ST 6 run=0 m=19 => ok 0 +0
             ST 10 m=5       => refused 15
             end runs 3 wire 4 cache 1 clock 0"
        ));
    }
}

/// Tables after the records of a walk, by calls alone.
fn tables(text: &str) -> Tables {
    let file = walk(text);
    let (header, rest) = read_header(&file).unwrap();
    let mut tables = Tables::empty(header.settings());
    for record in read_records(rest).0 {
        tables.call(&record).unwrap();
    }
    tables
}

/// "tables naming no such set meet 10", before all else.
#[test]
fn tables_name_one_of_three_sets() {
    let records = [
        Record::Term(TermRecord { kind: 0, left: 3, right: 0 }),
        Record::Step(StepRecord { step: 7, time: 1, ..StepRecord::default() }),
        Record::Step(StepRecord { step: 10, message: 4, ..StepRecord::default() }),
        Record::Step(StepRecord { step: 99, ..StepRecord::default() }),
    ];
    let good = tables(&served("H5", 0));
    for rules in 0..=255 {
        let mut tables = good.clone();
        tables.settings.rules = rules;
        for record in &records {
            let answer = tables.clone().call(record);
            assert_eq!(answer == Err(Refusal::BrokenTables), rules > 2, "{rules}: {record:?}");
        }
    }
}

/// The tables name the set, and no call changes it: what the server has sent under
/// one is then taken by its own.
#[test]
fn steps_go_by_the_set_of_the_tables() {
    let takes = |message| Record::Step(StepRecord { step: 4, message, ..StepRecord::default() });
    let expected = [("HD", 11, 0), ("HW", 11, 0), ("H5", 16, 1), ("H4", 16, 2)];
    for (letters, message, number) in expected {
        let asked = walk(&format!("{letters} n=4 Ls=9 La=9"));
        let (header, _) = read_header(&asked).unwrap();
        assert_eq!(header.settings().rules, number);
        let format = format_of(mark(asked.first_chunk().unwrap())).unwrap();
        assert_eq!(format.rules.number(), number);
        let served = tables(&format!("{letters} n=4 Ls=9 La=9\nST 1 a=1 b=2\nST 3 m=4"));
        for rules in 0..3 {
            let mut tables = served.clone();
            tables.settings.rules = rules;
            let answer = tables.call(&takes(message));
            assert_eq!(tables.settings.rules, rules);
            let fits = rules == number;
            let added = if number == 0 { 1 } else { 2 };
            let ok = Ok(Answer::Step { run: Some(0), added });
            assert_eq!(answer, if fits { ok } else { Err(Refusal::WrongForm) }, "{letters}");
        }
    }
}
