//! Walk files through the proved engine's public call, record by record, beside
//! the reference; and tables of other lengths.

use std::fs;
use std::path::PathBuf;

use lent::{call, Answer, Tables};
use reference::file::{read_header, read_record, Header, Record, StepRecord, TermRecord};
use reference::marks::{mark, FORMATS};
use reference::realm::{Answer as Expected, Realm};

const HEADER: Header =
    Header { mark: mark(b"HD"), principals: 3, flags: 0, ticket_life: 100, authenticator_life: 10 };

fn ok(run: Option<u8>, added: u16) -> Answer {
    Answer::Ok { run, added }
}

/// Each answer of a file, and the counts after it; how many records it has.
fn compare(name: &str, file: &[u8]) -> usize {
    let Ok((header, mut rest)) = read_header(file) else { return 0 };
    let mut realm = Realm::new(header.settings());
    let mut tables = lent::tables(&header);
    let mut records = 0;
    while let Some(Ok((record, after))) = read_record(rest) {
        rest = after;
        records += 1;
        let before = tables.clone();
        let answer = call(&mut tables, &record);
        let expected = match realm.apply(&record) {
            Ok(Expected::Old(number)) => Answer::Old(number),
            Ok(Expected::New(number)) => Answer::New(number),
            Ok(Expected::Step { run, added }) => ok(run.map(|run| run as u8), added as u16),
            Err(refusal) => Answer::Refused(refusal.number()),
        };
        assert_eq!(answer, expected, "{name}, record {records}: {record:?}");
        let grown = tables.realm.terms - before.realm.terms;
        assert_eq!(usize::from(answer.added()), grown, "{name}, record {records}: {record:?}");
        if let Answer::Refused(_) = answer {
            assert_eq!(
                tables, before,
                "{name}, record {records}: a refused record changes nothing"
            );
        }
        assert_eq!(tables.realm.terms, realm.terms.count(), "{name}, record {records}");
        assert_eq!(tables.realm.runs, realm.runs.len(), "{name}, record {records}");
        assert_eq!(tables.realm.clock, realm.clock, "{name}, record {records}");
        assert_eq!(tables.marks() as usize, realm.wire.len(), "{name}, record {records}");
        let entries = tables.cache[..tables.realm.entries].iter();
        let entries: Vec<_> = entries.map(|e| (e.b, e.k, e.ta)).collect();
        let expected = realm.cache.iter();
        let expected: Vec<_> = expected
            .map(|e| (u16::from(e.responder), u16::from(e.session_key), e.authenticator_time))
            .collect();
        assert_eq!(entries, expected, "{name}, record {records}");
    }
    records
}

fn example(name: &str) -> Vec<u8> {
    let directory = PathBuf::from(env!("CARGO_MANIFEST_DIR")).join("../../examples");
    fs::read(directory.join(name)).unwrap()
}

#[test]
fn case_f() {
    let file = example("case-f.walk");
    let (header, mut rest) = read_header(&file).unwrap();
    let mut tables = lent::tables(&header);
    let mut answers = Vec::new();
    while let Some(read) = read_record(rest) {
        let (record, after) = read.unwrap();
        rest = after;
        answers.push(call(&mut tables, &record));
    }
    let expected = [
        ok(Some(0), 5),
        ok(Some(1), 11),
        ok(Some(0), 1),
        ok(Some(2), 0),
        Answer::New(17),
        ok(Some(2), 1),
        ok(Some(0), 0),
        ok(Some(3), 0),
        Answer::Refused(18),
    ];
    assert_eq!(answers, expected);
    assert_eq!((tables.realm.runs, tables.marks(), tables.realm.entries), (4, 5, 1));
}

/// The same terms again: each is old, and the tables stay.
#[test]
fn terms_are_new_once() {
    let mut tables = lent::tables(&HEADER);
    let terms = [(0, 1, 0), (1, 0, 1), (2, 1, 0), (3, 1, 0), (4, 1, 0), (5, 0, 1), (6, 0, 4)];
    let terms = terms.map(|(kind, left, right)| Record::Term(TermRecord { kind, left, right }));
    let added = terms.map(|term| call(&mut tables, &term));
    assert_eq!(added, [0, 1, 2, 3, 4, 5, 6].map(Answer::New));
    let before = tables.clone();
    let again = terms.map(|term| call(&mut tables, &term));
    assert_eq!(again, [0, 1, 2, 3, 4, 5, 6].map(Answer::Old));
    assert_eq!(tables, before);
}

#[test]
fn examples_agree_with_the_reference() {
    let directory = PathBuf::from(env!("CARGO_MANIFEST_DIR")).join("../../examples");
    let mut records = 0;
    for entry in fs::read_dir(directory).unwrap() {
        let path = entry.unwrap().path();
        if path.extension().is_some_and(|extension| extension == "walk") {
            records += compare(&path.display().to_string(), &fs::read(&path).unwrap());
        }
    }
    assert!(records >= 50);
}

#[test]
fn generated_files_agree_with_the_reference() {
    let mut records = 0;
    for number in 0..1000 {
        let file = generator::walk_file(1, number);
        records += compare(&format!("file {number}"), &file);
    }
    assert!(records >= 10_000);
}

/// "a table lent with other than its full number of places": 10, before all else.
#[test]
fn tables_of_other_lengths_are_refused() {
    let opens = Record::Step(StepRecord { step: 1, a: 1, b: 2, ..StepRecord::default() });
    let unknown = Record::Step(StepRecord { step: 99, ..StepRecord::default() });
    let full = lent::tables(&HEADER);
    let mut short = vec![full.clone(); 8];
    short[0].terms.pop();
    short[1].terms.push(0);
    short[2].runs.pop();
    short[3].runs.push(0);
    short[4].wire.pop();
    short[5].wire.push(0);
    short[6].cache.pop();
    short[7].cache.push(full.cache[0]);
    for tables in short {
        for record in [&opens, &unknown] {
            let mut after = tables.clone();
            assert_eq!(call(&mut after, record), Answer::Refused(10));
            assert_eq!(after, tables);
        }
    }
    assert_eq!(call(&mut full.clone(), &unknown), Answer::Refused(4));
    assert_eq!(call(&mut full.clone(), &opens), ok(Some(0), 5));
}

/// Tables that do not hold together: 10, and every place as it was.
#[test]
fn broken_tables_are_refused() {
    let file = example("case-f.walk");
    let (header, mut rest) = read_header(&file).unwrap();
    let mut whole = lent::tables(&header);
    while let Some(Ok((record, after))) = read_record(rest) {
        rest = after;
        call(&mut whole, &record);
    }
    let ticks = Record::Step(StepRecord { step: 7, time: 5, ..StepRecord::default() });
    assert_eq!(call(&mut whole.clone(), &ticks), ok(None, 0));
    let breaks: [fn(&mut Tables); 19] = [
        |t| t.realm.n = 2,
        |t| t.realm.n = 33,
        |t| t.realm.rules = 3,
        |t| t.realm.rules = 255,
        |t| t.realm.flags = 1,
        |t| t.realm.flags = 8,
        |t| t.realm.flags = 1 << 16,
        |t| t.realm.flags = 1 << 31,
        |t| t.realm.ticket_life = 0,
        |t| t.realm.authenticator_life = 0,
        |t| t.realm.terms = 513,
        |t| t.realm.terms -= 1,
        |t| t.realm.runs = 65,
        |t| t.realm.entries = 17,
        |t| t.terms[1] = t.terms[0],
        |t| t.wire[7] = 1 << 63,
        |t| t.runs[0] = 9,
        |t| t.cache[0].b = 3,
        |t| t.cache[0].k = 96,
    ];
    for (number, broken) in breaks.iter().enumerate() {
        let mut tables = whole.clone();
        broken(&mut tables);
        let before = tables.clone();
        assert_eq!(call(&mut tables, &ticks), Answer::Refused(10), "{number}");
        assert_eq!(tables, before, "{number}");
    }
}

/// The tables name the rule set: a reply is taken by that of its own alone, and no
/// call changes it.
#[test]
fn steps_go_by_the_rule_set_of_the_tables() {
    let opens = Record::Step(StepRecord { step: 1, a: 1, b: 2, ..StepRecord::default() });
    let serves = Record::Step(StepRecord { step: 3, message: 4, ..StepRecord::default() });
    for format in &FORMATS {
        let number = format.rules.number();
        let (reply, added) = if number == 0 { (11, (11, 1)) } else { (16, (12, 2)) };
        let takes = Record::Step(StepRecord { step: 4, message: reply, ..StepRecord::default() });
        let mut served = lent::tables(&Header { mark: format.mark, ..HEADER });
        assert_eq!(call(&mut served, &opens), ok(Some(0), 5));
        assert_eq!(call(&mut served, &serves), ok(Some(1), added.0));
        for rules in 0..3 {
            let mut tables = served.clone();
            tables.realm.rules = rules;
            let expected = if rules == number { ok(Some(0), added.1) } else { Answer::Refused(14) };
            assert_eq!(call(&mut tables, &takes), expected, "{}", format.letters());
            assert_eq!(tables.realm.rules, rules);
        }
    }
}

/// A realm keeps no mark: n goes to 32 in each, and its flags with it.
#[test]
fn tables_of_32_principals_hold_together() {
    let ticks = Record::Step(StepRecord { step: 7, time: 5, ..StepRecord::default() });
    let opens = Record::Step(StepRecord { step: 1, a: 30, b: 31, ..StepRecord::default() });
    let cases = [
        (17, 1 << 16, ok(None, 0), Answer::Refused(6)),
        (31, 1 << 30, ok(None, 0), Answer::Refused(6)),
        (31, 1 << 31, Answer::Refused(10), Answer::Refused(10)),
        (32, 1 << 31, ok(None, 0), ok(Some(0), 5)),
        (32, 0xffff_fffe, ok(None, 0), ok(Some(0), 5)),
        (33, 0, Answer::Refused(10), Answer::Refused(10)),
    ];
    for (n, flags, ticked, opened) in cases {
        let mut tables = lent::tables(&HEADER);
        (tables.realm.n, tables.realm.flags) = (n, flags);
        assert_eq!(call(&mut tables.clone(), &ticks), ticked, "n {n}, flags {flags:#x}");
        assert_eq!(call(&mut tables, &opens), opened, "n {n}, flags {flags:#x}");
    }
}
