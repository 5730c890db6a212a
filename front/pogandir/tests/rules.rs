//! The rule sets, under each of the four marks: one text for all, the names of what
//! is sent, why a reply is refused, and texts that come back.

use engine::{Call, Header, Tables};
use pogandir::check;
use pogandir::forms;
use pogandir::listed::Listed;
use pogandir::notation::{notation, Names};
use pogandir::plain::lines;
use pogandir::script::{read, Script};
use pogandir::sheet::rows::rows;
use pogandir::vocabulary::{Mark, Step, APART, BESIDE, INSIDE, MARKS, QUERY, STEPS};
use pogandir::vocabulary::{REFUSED_TABLES, TICK};
use pogandir::walk::{Acceptance, Walk};

const MARKED: [&str; 4] = ["HD", "HW", "H5", "H4"];

/// An exchange up to the reply, and all of it: under every mark the same words.
const ASKED: &str = "r0 = panel asks cabinet\ns0 = server answers r0\n";
const EXCHANGE: &str = "r0 = panel asks cabinet\ns0 = server answers r0\nr0 takes s0.reply\n\
    c0 = cabinet waits for panel\nc0 takes [s0.ticket, r0.authenticator]\nr0 takes c0.confirmation\n";

fn text(mark: &str, bad: &str, sentences: &str) -> String {
    format!(
        "panel = 1, cabinet = 2\n\
         realm {mark} 3 principals, ticket life 100, authenticator life 10{bad}\n{sentences}"
    )
}

fn good(text: &str) -> Script {
    let script = read("text", text);
    assert!(!script.is_faulty(), "{text}: {:?}", script.faults);
    script
}

/// A text that does what it says.
fn held(mark: &str, sentences: &str) -> Script {
    let script = good(&text(mark, "", sentences));
    let verdict = check::script(&script);
    assert!(verdict.holds(), "{mark}: {}", verdict.shown());
    script
}

fn walk(script: &Script) -> &Walk {
    script.listed.walk.as_ref().expect("a walk")
}

fn rules(mark: &str) -> u8 {
    Mark::named(mark).and_then(Mark::rules).expect("a header's mark")
}

/// The term of a line `term ..`, which is there, in notation.
fn named(mark: &str, sentences: &str, name: &str) -> String {
    let script = held(mark, &format!("{sentences}term {name} => old"));
    let Some(engine::Answer::Old(term)) = walk(&script).taken.last().map(|taken| taken.answer)
    else {
        panic!("{mark}, {name}")
    };
    notation(&walk(&script).tables, &walk(&script).names, term)
}

#[test]
fn marks_name_the_rule_sets_of_the_engine() {
    let headers: Vec<&Mark> = MARKS.iter().filter(|mark| mark.is_header()).collect();
    let found: Vec<(&str, Option<u8>)> =
        headers.iter().map(|mark| (mark.letters, mark.rules())).collect();
    let expected = [("HD", APART), ("HW", APART), ("H5", BESIDE), ("H4", INSIDE)];
    assert_eq!(found, expected.map(|(letters, rules)| (letters, Some(rules))));
    for mark in headers {
        let header =
            Header { mark: mark.number(), n: 3, flags: 0, ticket_life: 1, authenticator_life: 1 };
        let opened = Tables::open(header).expect("a realm");
        assert_eq!(Some(opened.realm.rules), mark.rules(), "{}", mark.letters);
    }
}

#[test]
fn tables_that_name_no_rule_set_get_10() {
    let header =
        Header { mark: engine::mark(b"H5"), n: 3, flags: 0, ticket_life: 1, authenticator_life: 1 };
    let tick = Call::Step { step: TICK, run: 0, a: 0, b: 0, m: 0, t: 1 };
    let tables = Tables::open(header).expect("a realm");
    for rules in 0..=u8::MAX {
        let mut tables =
            Tables { realm: engine::Realm { rules, ..tables.realm }, ..tables.clone() };
        let before = tables.clone();
        let is_one = [APART, BESIDE, INSIDE].contains(&rules);
        assert_eq!(tables.known().err(), (!is_one).then_some(REFUSED_TABLES), "{rules}");
        match tables.call(tick) {
            engine::Answer::Ok { .. } => assert!(is_one, "{rules}"),
            answer => {
                assert_eq!((answer, is_one), (engine::Answer::Refused(REFUSED_TABLES), false));
                assert_eq!(tables, before);
            }
        }
    }
}

/// What a step takes has one name, whatever its form.
#[test]
fn messages_have_the_names_of_the_steps() {
    for rules in MARKED.map(rules) {
        for Step { number, takes, .. } in STEPS.into_iter().filter(|step| step.number != QUERY) {
            assert_eq!(forms::takes(rules, number).map(|named| named.name), takes, "{number}");
        }
    }
}

#[test]
fn one_text_is_an_exchange_under_every_mark() {
    let first = ["ST 1 a=1 b=2", "ST 3 m=4"];
    let apart = ["ST 4 run=0 m=11", "ST 2 a=1 b=2", "TM 5 L=15 R=16", "ST 5 run=2 m=17"];
    let passed_on = ["ST 4 run=0 m=16", "ST 2 a=1 b=2", "ST 5 run=2 m=18"];
    for mark in MARKED {
        let script = held(mark, EXCHANGE);
        let (middle, last) = match rules(mark) {
            APART => (&apart[..], "ST 6 run=0 m=18"),
            _ => (&passed_on[..], "ST 6 run=0 m=19"),
        };
        let records = [&first[..], middle, &[last]].concat();
        assert_eq!(lines(&script.listed.bytes)[1..], records, "{mark}");
        let acceptances = walk(&script).taken.iter().filter_map(|taken| taken.acceptance.clone());
        assert_eq!(acceptances.collect::<Vec<_>>(), [Acceptance::Matched(0)], "{mark}");
    }
}

#[test]
fn what_was_sent_has_its_names() {
    let part = "{k1, cabinet, t0, N0}K(panel)";
    let (ticket, authenticator) = ("{k1, panel, t0}K(cabinet)", "{panel, t0}k1");
    let passed_on = format!("[{ticket}, {authenticator}]");
    let beside = format!("[{part}, {ticket}]");
    let inside = "{k1, cabinet, t0, N0, {k1, panel, t0}K(cabinet)}K(panel)";
    let taken = format!("{ASKED}r0 takes s0.reply\n");
    for mark in MARKED {
        let (reply, has_part, passes_on) = match rules(mark) {
            APART => (part, false, false),
            BESIDE => (beside.as_str(), true, true),
            _ => (inside, false, true),
        };
        let expected = [
            ("s0.reply", Some(reply)),
            ("s0.part", has_part.then_some(part)),
            ("s0.ticket", Some(ticket)),
            ("r0.authenticator", Some(authenticator)),
            ("r0.delivery", passes_on.then_some(passed_on.as_str())),
            ("r0.ticket", passes_on.then_some(ticket)),
        ];
        for (name, shown) in expected {
            match shown {
                Some(shown) => assert_eq!(named(mark, &taken, name), shown, "{mark}, {name}"),
                None => {
                    let script = read("text", &text(mark, "", &format!("{taken}term {name}")));
                    let told = &script.faults[0].message;
                    assert!(told.starts_with(&format!("'{name}': ")), "{mark}: {told}");
                }
            }
        }
        // only what is sent whole is on the wire, and so in the sheet
        let script = held(mark, &taken);
        let rows = rows(&script.listed);
        let sent: Vec<&str> = rows.iter().flat_map(|row| &row.sent).map(|sent| sent.name).collect();
        let expected: &[&str] = match passes_on {
            true => &["request", "reply", "delivery"],
            false => &["request", "reply", "ticket", "authenticator"],
        };
        assert_eq!(sent, expected, "{mark}");
        assert_eq!(walk(&script).tables.marks() as usize, expected.len(), "{mark}");
    }
}

/// What a run has not sent is told by what it could have sent under its mark.
#[test]
fn names_that_are_not_there_are_told_by_the_rule_set() {
    let cases = [
        ("HD", "r0.delivery", "sends no such message"),
        ("HW", "s0.part", "sends no such message"),
        ("H4", "s0.part", "sends no such message"),
        ("HD", "r0.authenticator", "has not sent one"),
        ("H5", "r0.delivery", "has not sent one"),
        ("H4", "r0.authenticator", "has not sent one"),
    ];
    for (mark, name, told) in cases {
        let script = read("text", &text(mark, "", &format!("{ASKED}term {name}")));
        let [fault] = &script.faults[..] else { panic!("{mark}, {name}: {:?}", script.faults) };
        assert!(fault.message.contains(told), "{mark}, {name}: {}", fault.message);
    }
}

/// The reason of 14 tells what this mark's step 4 takes; each mark's reply is refused
/// under the others' rule sets.
#[test]
fn a_reply_of_another_form_is_told_by_the_rule_set() {
    let part = "{k(s0), cabinet, t0, N(r0)}K(panel)";
    let beside = format!("[{part}, s0.ticket]");
    let inside = "{k(s0), cabinet, t0, N(r0), s0.ticket}K(panel)";
    let shown = [
        "the step takes {K, cabinet, Ts, N0}K(panel)",
        "the step takes [{K, cabinet, Ts, N0}K(panel), X], with any term X",
        "the step takes {K, cabinet, Ts, N0, X}K(panel), with any term X",
    ];
    for mark in MARKED {
        for (form, reply) in [(APART, part), (BESIDE, &beside), (INSIDE, inside)] {
            let script = good(&text(mark, ", bad panel", &format!("{ASKED}r0 takes {reply}")));
            let last = script.told.last().expect("a line");
            let (answer, reason) = (last.outcome.shown(), last.reason.as_str());
            match form == rules(mark) {
                true => assert!(answer.starts_with("ok 0"), "{mark}, {reply}: {answer}"),
                false => {
                    let reason_of_mark = shown[usize::from(rules(mark))];
                    assert_eq!((answer.as_str(), reason), ("refused 14", reason_of_mark), "{mark}");
                }
            }
        }
    }
}

/// Any term stands for the ticket: it is passed on unopened, and is the responder's to
/// turn away.
#[test]
fn any_term_is_passed_on_as_the_ticket() {
    for x in ["t7", "cabinet", "[panel, t7]", "r0.request", "{t7}k64", "{k64, panel, t0}K(panel)"] {
        let replies = [
            ("H5", format!("[{{k(s0), cabinet, t0, N(r0)}}K(panel), {x}]")),
            ("H4", format!("{{k(s0), cabinet, t0, N(r0), {x}}}K(panel)")),
        ];
        for (mark, reply) in replies {
            let sentences = format!(
                "{ASKED}x = {x}\nr0 takes {reply}\nterm r0.ticket => old\nterm [x, r0.authenticator] => old\n\
                 c0 = cabinet waits for panel\nc0 takes r0.delivery => refused 14\n"
            );
            let script = good(&text(mark, ", bad panel", &sentences));
            let verdict = check::script(&script);
            assert!(verdict.holds(), "{mark}, {x}: {}", verdict.shown());
            let last = script.told.last().expect("a line");
            let form = "the step takes [{K, panel, Ts}K(cabinet), {panel, Ta}K]";
            assert_eq!(last.reason, form, "{mark}, {x}");
        }
    }
}

/// Ts, and how many terms are missing, are read out of the mark's own messages.
#[test]
fn values_of_a_reply_are_read_under_every_mark() {
    for mark in MARKED {
        let late = format!("clock 3\n{ASKED}clock 103\nr0 takes s0.reply => refused 16");
        let script = held(mark, &late);
        let last = script.told.last().expect("a line");
        assert_eq!(last.reason, "Ts 3 + Ls 100 = 103, and the clock is 103", "{mark}");
        let again = "c1 = cabinet waits for panel\nc1 takes [s0.ticket, r0.authenticator]";
        let replayed = format!("{EXCHANGE}{again} => refused 18");
        let script = held(mark, &replayed);
        let last = script.told.last().expect("a line");
        let record = if rules(mark) == APART { 6 } else { 5 };
        let entry = format!("entry 0: cabinet, k1, Ta 0, remembered at record {record}");
        assert_eq!(last.reason, entry, "{mark}");
    }
}

/// The terms that are told as missing are those that the step adds where there is room.
#[test]
fn missing_terms_are_counted_under_every_mark() {
    let steps = [(1, "s0 = server answers r0"), (2, "r0 takes s0.reply")];
    let lines = ["r0 = panel asks cabinet", steps[0].1];
    for mark in MARKED {
        for (before, step) in steps {
            let start = format!("{}\nclock 9\n", lines[..before].join("\n"));
            let roomy = held(mark, &format!("{start}{step}"));
            let added = usize::from(walk(&roomy).taken.last().expect("a record").answer.added());
            let there = walk(&roomy).tables.realm.terms - added;
            let fill = |count: usize| -> String {
                (0..count).map(|time| format!("term t{}\n", 1000 + time)).collect()
            };
            held(mark, &format!("{start}{}{step}", fill(512 - there - added)));
            let full =
                held(mark, &format!("{start}{}{step} => refused 20", fill(513 - there - added)));
            let told = &full.told.last().expect("a line").reason;
            let used = 513 - added;
            let expected = format!("{used} of 512 terms are there, and {added} more are needed");
            assert_eq!(*told, expected, "{mark}, {step}");
        }
    }
}

/// A text with names as a file, the file as a text in numbers, with and without its
/// answers.
#[test]
fn texts_come_back_under_every_mark() {
    let sentences =
        format!("{EXCHANGE}c1 = cabinet waits for panel\nc1 takes s0.reply => refused 14\n");
    for mark in MARKED {
        let script = held(mark, &sentences);
        let numbers = lines(&script.listed.bytes);
        assert!(numbers[0].starts_with(&format!("{mark} n=3 ")), "{numbers:?}");
        let again = good(&numbers.join("\n"));
        assert_eq!(again.listed.bytes, script.listed.bytes, "{mark}");
        assert_eq!(again.listed.lines, script.listed.lines, "{mark}");
        let listed = Listed::of_bytes("file", script.listed.bytes.clone(), Names::default());
        let expecting = check::expecting(&listed, &numbers);
        assert_eq!(expecting[0], format!("{} => ok", numbers[0]));
        assert!(check::script(&good(&expecting.join("\n"))).holds(), "{mark}");
    }
}

/// h5 and h4 were names of runs before they were marks.
#[test]
fn marks_with_a_digit_leave_names_to_runs() {
    let runs = "h5 = panel asks cabinet\nh4 = server answers h5\nh5 takes h4.reply\n";
    for mark in ["HD", "H5", "h5", "h4"] {
        held(mark, runs);
    }
    for name in ["H5", "H4", "hd", "Hw"] {
        let script = read("text", &text("HD", "", &format!("{name} = panel asks cabinet")));
        assert!(script.is_faulty(), "{name}");
    }
    assert!(read("text", "h5 n=3 Ls=1 La=1").is_faulty());
    assert!(!read("text", "H5 n=3 Ls=1 La=1").is_faulty());
}
