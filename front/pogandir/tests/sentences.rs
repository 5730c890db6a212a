//! Walks with names: the records that sentences make, what is expected of them, and
//! what is told of those that cannot be read.

use std::fs;
use std::path::PathBuf;

use pogandir::check;
use pogandir::plain::lines;
use pogandir::script::{read, Script};

const REALM: &str =
    "realm 3 principals, ticket life 100, authenticator life 10\npanel = 1, cabinet = 2\n";

fn examples(extension: &str) -> Vec<PathBuf> {
    let directory = PathBuf::from(env!("CARGO_MANIFEST_DIR")).join("../../examples");
    let paths = fs::read_dir(directory).unwrap().map(|entry| entry.unwrap().path());
    let mut found: Vec<PathBuf> =
        paths.filter(|path| path.extension().is_some_and(|other| other == extension)).collect();
    found.sort();
    found
}

fn good(text: &str) -> Script {
    let script = read("text", text);
    assert!(!script.is_faulty(), "{text}: {:?}", script.faults);
    script
}

fn holds(text: &str) {
    let verdict = check::script(&good(text));
    assert!(verdict.holds(), "{text}\n{}", verdict.shown());
}

/// The records of sentences behind those of the realm.
fn records(text: &str) -> Vec<String> {
    lines(&good(&format!("{REALM}{text}")).listed.bytes)[1..].to_vec()
}

fn errors(text: &str) -> Vec<(usize, usize, String)> {
    let script = read("text", &format!("{REALM}{text}"));
    let errors = script.faults.into_iter().filter(|fault| fault.is_error());
    errors.map(|fault| (fault.line - 2, fault.column, fault.message)).collect()
}

/// Every example exists in both forms, and both make the same file.
#[test]
fn examples_make_their_files_and_do_what_they_say() {
    let walks = examples("walk");
    assert!(walks.len() >= 16);
    for walk in walks {
        let bytes = fs::read(&walk).unwrap();
        for extension in ["txt", "names"] {
            let text = fs::read_to_string(walk.with_extension(extension)).unwrap();
            let script = good(&text);
            assert_eq!(script.listed.bytes, bytes, "{} in .{extension}", walk.display());
        }
        holds(&fs::read_to_string(walk.with_extension("names")).unwrap());
    }
}

/// "Inserting a clock step changes no other line": at every place of an exchange.
#[test]
fn a_clock_step_can_stand_anywhere() {
    for name in ["case-f", "case-f-h5", "case-f-h4"] {
        let path =
            examples("names").into_iter().find(|path| path.file_stem() == Some(name.as_ref()));
        let text = fs::read_to_string(path.unwrap()).unwrap();
        let all: Vec<&str> = text.lines().collect();
        let first = all.iter().position(|line| line.starts_with("realm")).unwrap();
        for place in first + 1..all.len() - 1 {
            let mut with = all.clone();
            with.insert(place, "clock 1");
            with.pop(); // what is expected at the end: clock 0
            holds(&with.join("\n"));
        }
    }
}

#[test]
fn sentences_have_their_records() {
    let cases: [(&str, &[&str]); 12] = [
        ("panel asks cabinet", &["ST 1 a=1 b=2"]),
        ("c0 = cabinet waits for panel", &["ST 2 a=1 b=2"]),
        ("p1 asks for 2", &["ST 1 a=1 b=2"]),
        ("clock 0x10", &["ST 7 t=16"]),
        ("server forgets", &["ST 8 b=0"]),
        ("term [panel, cabinet]", &["TM 0 L=1", "TM 0 L=2", "TM 5 L=0 R=1"]),
        ("term {t65536}K(server)", &["TM 1 L=1 R=0", "TM 3 L=0", "TM 6 L=0 R=1"]),
        ("term N95\nterm k95\nterm now", &["TM 2 L=95", "TM 4 L=95", "TM 1 L=0 R=0"]),
        (
            "x = [t0, t0]\ny = [x, x]\nintruder derives y",
            &["TM 1 L=0 R=0", "TM 5 L=0 R=0", "TM 5 L=1 R=1", "ST 10 m=2"],
        ),
        ("term t0\nterm term 0", &["TM 1 L=0 R=0", "TM 1 L=0 R=0"]),
        ("r0 = panel asks cabinet\nleak r0", &["ST 1 a=1 b=2", "ST 9 run=0"]),
        (
            "r0 = panel asks cabinet\nr0 takes confirmation t0\nrun 0 takes the delivery t0",
            &["ST 1 a=1 b=2", "TM 1 L=0 R=0", "ST 6 run=0 m=5", "ST 5 run=0 m=5"],
        ),
    ];
    for (text, expected) in cases {
        assert_eq!(records(text), expected, "{text}");
    }
}

/// Capitals do not matter in the words of sentences.
#[test]
fn capitals_do_not_matter() {
    let text = "R = panel ASKS cabinet\nS = Server Answers R\nRun 0 Takes S.reply\nCLOCK 3\nLeak S\nEnd => clock 3";
    let made = records(text);
    assert_eq!(made, ["ST 1 a=1 b=2", "ST 3 m=4", "ST 4 run=0 m=11", "ST 7 t=3", "ST 9 run=1"]);
}

#[test]
fn realms_have_their_headers() {
    let lives = "ticket life 7, authenticator life 8";
    let cases = [
        (format!("realm 3 principals, {lives}"), "HD n=3 flags=0 Ls=7 La=8"),
        (format!("realm 16 principals, {lives}"), "HD n=16 flags=0 Ls=7 La=8"),
        (format!("realm 17 principals, {lives}"), "HW n=17 flags=0 Ls=7 La=8"),
        (format!("realm 33 principals, {lives}"), "HW n=33 flags=0 Ls=7 La=8"),
        (format!("realm HW 3 principals, {lives}"), "HW n=3 flags=0 Ls=7 La=8"),
        (format!("realm H5 3 principals, {lives}"), "H5 n=3 flags=0 Ls=7 La=8"),
        (format!("realm h4 32 principals, {lives}, bad 31"), "H4 n=32 flags=0x80000000 Ls=7 La=8"),
        (
            format!("x = 2\nrealm 4 principals, {lives}, bad x and p3"),
            "HD n=4 flags=0x000c Ls=7 La=8",
        ),
        (format!("realm 4 principals, bad 1, 2, {lives}"), "HD n=4 flags=0x0006 Ls=7 La=8"),
        (
            "realm 3 principals, ticket life 0, authenticator life 1".to_string(),
            "HD n=3 flags=0 Ls=0 La=1",
        ),
        (format!("realm 3 principals, {lives}, ticket life 8"), ""),
        ("Realm 4 Principals, bad 1, 2".to_string(), ""),
    ];
    for (text, expected) in cases {
        let script = read("text", &text);
        match expected {
            "" => assert!(script.is_faulty(), "{text}"),
            _ => assert_eq!(lines(&script.listed.bytes), [expected], "{text}"),
        }
    }
}

#[test]
fn expectations_hold_exactly_where_they_should() {
    let steps = "r0 = panel asks cabinet";
    let cases = [
        (steps, "ok", true),
        (steps, "ok 0", true),
        (steps, "ok +5", true),
        (steps, "ok 0 +5", true),
        (steps, "any", true),
        (steps, "ok 1", false),
        (steps, "ok +4", false),
        (steps, "refused", false),
        (steps, "refused 13", false),
        (steps, "new", false),
        ("panel asks panel", "refused", true),
        ("panel asks panel", "refused 6", true),
        ("panel asks panel", "refused 5", false),
        ("panel asks panel", "ok", false),
        ("panel asks panel", "any", true),
        ("term t0", "new", true),
        ("term t0", "0 new", true),
        ("term t0", "ok", true),
        ("term t0", "ok +1", true),
        ("term t0", "old", false),
        ("term t0", "1 new", false),
        ("term t0", "ok 0", false),
        ("clock 5", "ok - +0", true),
        ("clock 5", "ok 0", false),
        ("end", "runs 0, wire 0, cache 0, clock 0", true),
        ("at the end", "clock 0", true),
        ("end", "runs 1", false),
        ("end", "runs 0 wire 1", false),
    ];
    for (line, expected, held) in cases {
        let text = format!("{REALM}{line} => {expected}");
        assert_eq!(check::script(&good(&text)).holds(), held, "{line} => {expected}");
    }
    // what is not said is expected to be accepted
    assert!(!check::script(&good(&format!("{REALM}panel asks panel"))).holds());
    // and a walk that is not read to its end is not as expected
    for text in ["", "# nothing", "raw 00", &format!("{REALM}raw 53 54"), &format!("{REALM}HD n=3")]
    {
        assert!(!check::script(&good(text)).holds(), "{text}");
    }
    holds(&format!("{REALM}raw 53 54 => refused 3"));
}

#[test]
fn a_difference_names_line_record_refusal_and_reason() {
    let text =
        format!("{REALM}r0 = panel asks cabinet\ns0 = server answers r0\nintruder derives k(s0)");
    let verdict = check::script(&good(&text));
    let [difference] = &verdict.differences[..] else { panic!("{verdict:?}") };
    assert_eq!((difference.line, difference.record), (Some(5), Some(3)));
    assert_eq!(difference.got, "refused 15");
    assert_eq!(difference.reason, "the intruder cannot derive the message: he lacks k1");
    assert!(verdict
        .shown()
        .starts_with("text:5: record 3: expected ok, got refused 15 (the intruder"));
}

/// The step is not taken where a term that its message needs does not fit.
#[test]
fn a_term_that_is_refused_is_told_at_its_line() {
    let mut text = REALM.to_string();
    for time in 0..511 {
        text += &format!("term t{time}\n");
    }
    text += "intruder derives [t600, t601] => refused 20\n";
    let script = good(&text);
    assert!(check::script(&script).holds());
    assert_eq!(script.listed.lines.last().unwrap(), "end runs 0 wire 0 cache 0 clock 0");
    assert_eq!(lines(&script.listed.bytes).last().unwrap(), "TM 1 L=0 R=601");
}

#[test]
fn faults_name_their_place_and_what_is_allowed() {
    let cases = [
        (
            "panl asks cabinet",
            1,
            "'panl' is not the name of a principal; names so far: cabinet, panel",
        ),
        ("panel asks", 11, "a principal is expected here"),
        ("panel asks cabinet now", 20, "'now' is not expected here: the line should end before it"),
        ("r0 takes t0", 1, "'r0' is not the name of a run"),
        ("panel takes t0", 1, "'panel' is a principal and no run"),
        ("Panel asks cabinet", 1, "'Panel' is not the name of a principal ('panel' is one)"),
        (
            "r0 = panel ask cabinet",
            6,
            "'ask' is no verb that stands here; asks, waits for and answers",
        ),
        ("s0 = server answers r0", 21, "'r0' is not the name of a run or a message"),
        ("x = 3 y = 4", 7, "',' is expected here, and not 'y'"),
        ("Clock = 5", 1, "'Clock' cannot be a name"),
        ("term k(panel)", 8, "'panel' is a principal and no run"),
        ("\"panel asks cabinet\"", 1, "leave the quotation marks out"),
        ("clock 5 =>", 11, "what is expected (ok, refused"),
        ("clock 5 => refused 77", 20, "there is no refusal 77"),
        ("clock 5 => refused 4294967311", 20, "too large"),
        ("clock 5 => 4294967304 new", 12, "too large"),
        ("clock 5 => ok 4294967300", 15, "too large"),
        ("panel = 3", 1, "'panel' has a meaning already, from line 2"),
        ("t20 = panel asks cabinet", 1, "'t20' cannot be a name"),
        ("clock = 5", 1, "'clock' cannot be a name"),
        ("a.b = t0", 1, "'a.b' cannot be a name"),
        ("clock soon", 7, "the clock: 'soon' is no number; 0 to 4294967295 is allowed"),
        ("clock 4294967296", 7, "the clock: 4294967296 is too large"),
        ("term [t0, t1", 13, "']' is expected here, and the line ends"),
        ("term [t0 t1]", 10, "']' is expected here, and not 't1'"),
        ("term {t0}", 10, "a message is expected here"),
        ("term N96", 6, "'N96': 0 to 95 is allowed"),
        ("term x", 6, "'x' is not the name of a message"),
        ("term q(panel)", 6, "'q(' is not known; K(principal), k(run)"),
        ("term term 0", 6, "term 0 is not there; there are 0 terms"),
        ("run 0 takes t0", 1, "run 0 is not there; there are 0 runs"),
        ("panel answers t0", 1, "the server answers, nobody else"),
        ("realm 3 principals, ticket life 1, authenticator life 1", 7, "a walk has one realm"),
        ("end => spoons 3", 8, "'spoons' is not told at the end"),
        ("x = t0 => new", 8, "nothing can be expected of this line"),
        (
            "hello world",
            1,
            "this is no sentence; a line is a record (HD, HW, H5, H4, TM, ST, raw) or one of",
        ),
    ];
    for (text, column, message) in cases {
        let errors = errors(text);
        assert_eq!(errors.len(), 1, "{text}: {errors:?}");
        let (line, of, told) = &errors[0];
        assert!(told.contains(message), "{text}: {told}");
        assert_eq!((*line, *of), (1, column), "{text}: {told}");
    }
}

/// A value that a run does not hold is not read as 0.
#[test]
fn runs_tell_only_what_they_hold() {
    let start = "r0 = panel asks cabinet\ns0 = server answers r0\nc0 = cabinet waits for panel\n";
    let cases = [
        ("k(r0)", "r0 has no k: it has not taken a reply"),
        ("Ts(c0)", "c0 has no Ts: it has not taken a delivery"),
        ("Ta(s0)", "s0 has no Ta: a server run has none"),
    ];
    for (message, told) in cases {
        let errors = errors(&format!("{start}term {message}"));
        assert_eq!(errors[0].2, told);
    }
    let held = "r0 takes s0.reply\nterm {N(r0), Ts(s0), Ts(r0), Ta(r0), k(r0)}k(s0)";
    assert_eq!(errors(&format!("{start}{held}")), []);
}

/// A line about a run that was not opened is not passed over.
#[test]
fn runs_that_did_not_open_are_told() {
    let errors = errors("r0 = panel asks panel => refused 6\nr0 takes t0 => refused 11\nleak r0");
    assert_eq!(errors.len(), 2, "{errors:?}");
    assert!(errors[0].2.starts_with("'r0' is no run: line 3 got refusal 6, "), "{errors:?}");
    let again =
        "r0 = panel asks panel => refused 6\nr0 = panel asks cabinet\nterm r0.request => old";
    holds(&format!("{REALM}{again}"));
}

/// What the end tells is said once.
#[test]
fn two_ends_are_one_too_many() {
    let errors = errors("end => cache 99\nend => clock 0");
    assert_eq!(errors, [(2, 8, "the end is told already, in line 3".to_string())]);
}

/// A realm that cannot be read is told, and the lines behind it are not.
#[test]
fn a_realm_with_a_fault_is_told_once() {
    let lines = "r0 = panel asks cabinet\nclock 5\npanel forgets\n";
    for realm in ["realm 3 principals ticket life 1", "realm 3 principals, ticket life 1"] {
        let script = read("text", &format!("panel = 1, cabinet = 2\n{realm}\n{lines}"));
        assert_eq!(script.faults.len(), 1, "{:?}", script.faults);
    }
    let refused = read("text", &format!("panel = 1, cabinet = 2\nHD n=2 Ls=1 La=1\n{lines}"));
    assert_eq!(refused.faults.iter().filter(|fault| fault.is_error()).count(), 1);
}

#[test]
fn a_fault_is_told_once() {
    let text = "r0 = panel aks cabinet\ns0 = server answers r0\nr0 takes s0.reply\n\
        c0 = cabinet waits for panel\nc0 takes [s0.ticket, r0.authenticator]\nr0 takes c0.confirmation";
    let errors = errors(text);
    assert_eq!(errors.len(), 1, "{errors:?}");
    assert_eq!(errors[0].0, 1);
}

#[test]
fn sentences_need_a_walk_that_is_read() {
    let before = read("text", "panel = 1\nclock 5");
    assert!(before.faults[0].message.contains("a walk begins with its realm"));
    let message = read("text", "x = t0");
    assert!(message.faults[0].message.contains("a walk begins with its realm"));
    assert_eq!(message.listed.bytes, []);
    let refused = read("text", "HD n=2 Ls=1 La=1\nclock 5");
    assert!(refused.faults[1].message.contains("reading has ended with refusal 2"));
    let raw = read("text", "HD n=3 Ls=1 La=1\nraw 00\nclock 5\nclock 6");
    assert_eq!(raw.faults.len(), 1, "told once");
    assert!(raw.faults[0].message.contains("raw bytes stand before this"));
}

/// Brackets without end are told, and do not fill the stack.
#[test]
fn a_message_that_is_too_deep_is_told() {
    for message in ["[".repeat(100_000), format!("[{}t0]", "t0, ".repeat(100_000))] {
        let errors = errors(&format!("term {message}"));
        assert!(errors[0].2.contains("deeper than a table of 512 terms holds"), "{errors:?}");
    }
}

/// Shared parts: 2^400 leaves, and neither the walk nor its notation takes long.
#[test]
fn deep_terms_are_cut() {
    let mut text = format!("{REALM}x0 = t0\n");
    for i in 0..400 {
        text += &format!("x{} = [x{i}, x{i}]\n", i + 1);
    }
    text += "intruder derives x400\nintruder derives {x400}K(panel) => refused 15\n";
    let script = good(&text);
    assert!(check::script(&script).holds());
    let walk = script.listed.walk.unwrap();
    let shown = pogandir::notation::notation(&walk.tables, &walk.names, 400);
    assert!(shown.len() < 1000 && shown.contains('…'), "{shown}");
}
