//! Generated walks and damaged files, and texts of random words: nothing stops the
//! front end, and what it shows is the engine's.

use engine::Answer;
use generator::random::Random;
use generator::{damaged_file, walk_file};
use pogandir::listed::Listed;
use pogandir::notation::{notation, Names};
use pogandir::plain;
use pogandir::script::read;
use pogandir::{answers, check};

fn files() -> impl Iterator<Item = Vec<u8>> {
    (0..500).flat_map(|number| [walk_file(91, number), damaged_file(92, number)])
}

/// `of_bytes` holds each answer against the listing; each refusal has its reason.
#[test]
fn every_refusal_has_a_reason() {
    let mut refusals = std::collections::BTreeMap::new();
    for (number, file) in files().enumerate() {
        let listed = Listed::of_bytes("file", file, Names::default());
        let Some(walk) = &listed.walk else { continue };
        for (record, taken) in walk.taken.iter().enumerate() {
            if let Answer::Refused(refusal) = taken.answer {
                *refusals.entry(refusal).or_insert(0) += 1;
                assert_ne!(taken.reason, "", "file {number}, record {}: {taken:?}", record + 1);
            }
        }
        (0..walk.tables.realm.terms as u16).for_each(|term| {
            assert!(notation(&walk.tables, &walk.names, term).len() < 2000);
        });
    }
    let met: Vec<u8> = refusals.keys().copied().collect();
    assert_eq!(met, [4, 5, 6, 11, 12, 13, 14, 15, 16, 17, 18, 19, 20, 22], "{refusals:?}");
}

/// A file as text is the same file, and with its answers as expectations it holds.
#[test]
fn texts_of_files_give_the_files_back() {
    for (number, file) in files().enumerate() {
        let lines = plain::lines(&file);
        let script = read("text", &lines.join("\n"));
        assert!(!script.is_faulty(), "file {number}: {:?}", script.faults);
        assert_eq!(script.listed.bytes, file, "file {number}");
        let listed = Listed::of_bytes("file", file, Names::default());
        assert_eq!(script.listed.lines, listed.lines, "file {number}");
        if lines.is_empty() {
            continue; // no line can say what is expected of an empty file
        }
        let expecting = read("text", &check::expecting(&listed, &lines).join("\n"));
        let verdict = check::script(&expecting);
        assert!(verdict.holds(), "file {number}\n{}", verdict.shown());
    }
}

const WORDS: &str = "HD HW H5 H4 TM ST raw realm principals ticket life authenticator bad and 0 1 2 3 16 100 = => , [ ] { } ( ) \
    panel cabinet r0 s0 c0 asks waits for answers forgets takes leak clock term intruder derives server now t0 N0 k0 K k N Ts Ta \
    s0.reply s0.part s0.ticket r0.authenticator r0.ticket r0.delivery c0.confirmation r0.request ok refused new old any end run n Ls La flags L R a b m t 0x7 -1 +5 é";

/// Whatever the words, the text is read to its end.
#[test]
fn random_words_are_read() {
    let words: Vec<&str> = WORDS.split_whitespace().collect();
    let start = "3 principals, ticket life 100, authenticator life 10\npanel = 1, cabinet = 2\n\
        r0 = panel asks cabinet\ns0 = server answers r0\nr0 takes s0.reply\nc0 = cabinet waits for panel\n";
    for number in 0..3000 {
        let mut random = Random::new(93, number);
        let mark = random.pick(&["HD", "HW", "H5", "H4"]);
        let realm = format!("realm {mark} {start}");
        let mut text = if random.percent(70) { realm } else { String::new() };
        for _ in 0..random.below(12) {
            let line: Vec<&str> = (0..random.below(9)).map(|_| random.pick(&words)).collect();
            text += &format!("{}\n", line.join(" "));
        }
        let script = read("text", &text);
        let _ = check::script(&script).shown();
        for fault in &script.faults {
            let line = text.lines().nth(fault.line - 1).expect("the line is there");
            assert!(fault.column <= line.chars().count() + 1, "{text}\n{fault:?}");
        }
    }
}

#[test]
fn answers_are_shown_as_in_the_listing() {
    assert_eq!(answers::listed(Answer::Old(3)), "3 old");
    assert_eq!(answers::listed(Answer::New(17)), "17 new");
    assert_eq!(answers::listed(Answer::Ok { run: Some(2), added: 1 }), "ok 2 +1");
    assert_eq!(answers::listed(Answer::Ok { run: None, added: 0 }), "ok - +0");
    assert_eq!(answers::listed(Answer::Refused(18)), "refused 18");
}
