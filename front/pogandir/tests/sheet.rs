//! The sheet against the listing: of every example, of the stored walks, and of walks
//! that are hard to show.

mod readers;

use std::collections::BTreeSet;
use std::fs;
use std::path::{Path, PathBuf};
use std::process::Command;
use std::sync::OnceLock;

use engine::{Call, Header, Role, Run, Stage};
use pogandir::listed::Listed;
use pogandir::notation::Names;
use pogandir::record::Record;
use pogandir::script;
use pogandir::sheet;
use pogandir::sheet::rows::{rows, Change, Row};
use pogandir::vocabulary::{ENCRYPTED, LONG_TERM_KEY, PAIR, QUERY, TIME};
use pogandir::walk::{matched, Acceptance};

use readers::{attributes, balanced, csv};

fn top() -> PathBuf {
    Path::new(env!("CARGO_MANIFEST_DIR")).join("../..")
}

fn files_in(folder: &str, ending: &str) -> Vec<PathBuf> {
    let entries = fs::read_dir(top().join(folder)).expect("the folder is there");
    let files = entries.map(|entry| entry.expect("an entry").path());
    let mut files: Vec<PathBuf> =
        files.filter(|file| file.extension().is_some_and(|end| end == ending)).collect();
    files.sort();
    assert!(!files.is_empty(), "{folder} has files .{ending}");
    files
}

fn listed(file: &Path, names: Names) -> Listed {
    let name = file.file_name().expect("a name").to_string_lossy();
    Listed::of_bytes(&name, fs::read(file).expect("the walk is there"), names)
}

fn example(name: &str) -> Listed {
    listed(&top().join("examples").join(name), Names::default())
}

fn named(file: &Path) -> Listed {
    script::read("example.names", &fs::read_to_string(file).expect("the text is there")).listed
}

/// Every example, also with its names, and every third stored walk that is not long.
fn all() -> &'static [Listed] {
    static ALL: OnceLock<Vec<Listed>> = OnceLock::new();
    ALL.get_or_init(|| {
        let is_short = |file: &PathBuf| fs::metadata(file).expect("a file").len() < 3000;
        let stored = files_in("crates/vectors/data", "walk").into_iter().step_by(3);
        let walks = files_in("examples", "walk").into_iter().chain(stored.filter(is_short));
        let walks = walks.map(|file| listed(&file, Names::default()));
        walks.chain(files_in("examples", "names").iter().map(|file| named(file))).collect()
    })
}

fn lines(listed: &Listed) -> Vec<&String> {
    listed.lines.iter().filter(|line| !line.starts_with("end")).collect()
}

fn line(row: &Row) -> String {
    format!("{} {} {}", row.record, row.mark, row.answer)
}

/// A walk of these calls in a realm of three.
fn walk_of(calls: &[Call], names: Names) -> Listed {
    let mark = engine::mark(b"HD");
    let header = Header { mark, n: 3, flags: 0, ticket_life: 100, authenticator_life: 10 };
    let mut bytes = Record::of_header(&header).expect("a header").bytes();
    bytes.extend(calls.iter().flat_map(|&call| Record::of_call(call).bytes()));
    Listed::of_bytes("made.walk", bytes, names)
}

/// x0, then pairs of the last term with itself, and the question for the last.
fn doubled(first: Call, times: u16) -> Vec<Call> {
    let pair = |l| Call::Term { kind: PAIR, l, r: l };
    let ask = Call::Step { step: QUERY, run: 0, a: 0, b: 0, m: times, t: 0 };
    [first].into_iter().chain((0..times).map(pair)).chain([ask]).collect()
}

#[test]
fn rows_are_the_lines_of_the_listing() {
    for listed in all() {
        let shown: Vec<String> = rows(listed).iter().map(line).collect();
        assert_eq!(shown.iter().collect::<Vec<_>>(), lines(listed), "{}", listed.name);
    }
}

#[test]
fn the_program_writes_the_sheet() {
    let file = top().join("examples/case-f.walk");
    let output = |options: &[&str]| {
        let mut program = Command::new(env!("CARGO_BIN_EXE_pogandir"));
        let done = program.arg("sheet").args(options).arg(&file).output().expect("it runs");
        assert!(done.status.success());
        String::from_utf8(done.stdout).expect("UTF-8")
    };
    assert_eq!(output(&["--csv"]), sheet::csv(&example("case-f.walk")));
    let json = output(&["--json"]);
    assert!(json.starts_with("[{\"file\": \"") && json.ends_with("\"faults\": []}]\n"));
    assert_eq!(output(&[]), sheet::html(&example("case-f.walk")));
}

#[test]
fn csv_reads_back() {
    for listed in all() {
        let records = csv(&sheet::csv(listed)).expect(&listed.name);
        let column = |name| records[0].iter().position(|cell| cell == name).expect("a column");
        let shown = ["record", "mark", "answer"].map(column);
        let read = |record: &Vec<String>| shown.map(|column| record[column].clone()).join(" ");
        assert!(records.iter().all(|record| record.len() == records[0].len()));
        let read: Vec<String> = records[1..].iter().map(read).collect();
        assert_eq!(read.iter().collect::<Vec<_>>(), lines(listed), "{}", listed.name);
    }
}

#[test]
fn csv_runs_no_formula() {
    for first in ['=', '+', '-', '@', '\t'] {
        let name = format!("{first}1+1\"|x");
        let names = Names { principals: [(1, name)].into(), ..Names::default() };
        let listed = listed(&top().join("examples/case-f.walk"), names);
        let records = csv(&sheet::csv(&listed)).expect("CSV");
        let cells: Vec<&String> = records.iter().flatten().collect();
        assert!(cells.iter().all(|cell| !cell.starts_with(first)));
        assert!(cells.iter().any(|cell| cell.starts_with(&format!("'{first}1+1\"|x asks"))));
        assert!(cells.iter().any(|cell| *cell == "ok - +0" || *cell == "ok 0 +5"));
    }
}

#[test]
fn csv_tells_its_encoding_where_it_is_not_ascii() {
    let names = Names { principals: [(1, "Brüter".to_string())].into(), ..Names::default() };
    let file = top().join("examples/case-f.walk");
    assert!(sheet::csv(&listed(&file, names)).starts_with('\u{feff}'));
    assert!(sheet::csv(&example("case-f.walk")).starts_with("\"record\""));
}

#[test]
fn json_has_the_rows() {
    for listed in all() {
        let json = sheet::json(listed, &[]);
        let objects: Vec<&str> = json.lines().filter(|line| line.starts_with("{\"rec")).collect();
        assert_eq!(objects.len(), lines(listed).len());
        for (object, row) in objects.iter().zip(rows(listed)) {
            assert!(object.starts_with(&format!("{{\"record\": {},", row.record)));
            assert!(object.contains(&format!("\"answer\": \"{}\"", row.answer)));
        }
    }
}

#[test]
fn pages_are_well_formed_and_their_links_lead_somewhere() {
    for listed in all() {
        let html = sheet::html(listed);
        balanced(&html).expect(&listed.name);
        let ids = attributes(&html, "id");
        let unique: BTreeSet<&str> = ids.iter().copied().collect();
        assert_eq!(ids.len(), unique.len(), "{}", listed.name);
        for link in attributes(&html, "href") {
            assert!(unique.contains(link.trim_start_matches('#')), "{}: {link}", listed.name);
        }
    }
}

#[test]
fn names_are_escaped() {
    let name = "<b>&\"'</script>".to_string();
    let names = Names { principals: [(1, name.clone())].into(), runs: [(0, name)].into() };
    let mut listed = listed(&top().join("examples/case-f.walk"), names);
    listed.name = "walks/<i>.walk".to_string();
    let html = sheet::html(&listed);
    balanced(&html).expect("a page");
    assert!(!html.contains("<b>&") && !html.contains("<i>."));
    assert!(html.contains("<td><div class=\"call\">&lt;b&gt;&amp;&quot;&#39;&lt;/script&gt; asks"));
    assert!(html.contains("\"\\u003cb>&\\\"'\\u003c/script>\""));
    assert!(html.contains("<h1>&lt;i&gt;.walk</h1>"));
}

#[test]
fn a_term_of_many_leaves_is_cut() {
    let time = Call::Term { kind: TIME, l: 0, r: 0 };
    let key = Call::Term { kind: LONG_TERM_KEY, l: 1, r: 0 };
    for (first, answer) in [(time, "ok - +0"), (key, "refused 15")] {
        let listed = walk_of(&doubled(first, 400), Names::default());
        let last = rows(&listed).pop().expect("a row");
        assert_eq!((last.record, last.answer.as_str()), (402, answer));
        let text = last.message.expect("a message").text();
        assert!(text.contains("…398") && text.len() < 1000, "{text}");
        let html = sheet::html(&listed);
        assert!(html.contains("<a class=\"cut\" href=\"#term-398\">…398</a>"));
        assert!(html.len() < 1_500_000, "{} bytes", html.len());
    }
}

#[test]
fn a_long_walk_has_a_page_of_some_size() {
    let term = |record: u32| Call::Term { kind: TIME, l: 0, r: (record % 100) as u16 };
    let calls: Vec<Call> = (1..9000).map(term).collect();
    let listed = walk_of(&calls, Names::default());
    let html = sheet::html(&listed);
    assert_eq!(rows(&listed).len(), 9000);
    assert!(html.len() < 4_000_000, "{} bytes", html.len());
}

#[test]
fn acceptances_show_what_stands_behind_them() {
    let matched = &rows(&example("case-f.walk"))[6];
    assert_eq!(matched.acceptance, Some(Acceptance::Matched(0)));
    let open = &rows(&example("leaked-key.walk"))[14];
    assert!(
        matches!(&open.acceptance, Some(Acceptance::NotCovered(why)) if why.contains("leaked"))
    );
    let html = sheet::html(&example("leaked-key.walk"));
    assert!(html.contains("<tr id=\"record-14\" class=\"step warned\""));
    assert!(html.contains("<div class=\"reason is-warning\">not covered: "));
}

#[test]
fn a_listener_gains_what_a_leak_gives_away() {
    let rows = rows(&example("leaked-key.walk"));
    let texts = |terms: &[sheet::rows::Noted]| -> Vec<String> {
        terms.iter().map(|noted| noted.text()).collect()
    };
    assert_eq!(texts(&rows[1].listener.learns), ["N0"]);
    let leak = &rows[12].listener;
    assert_eq!(texts(&leak.learns), ["k1"]);
    assert_eq!(texts(&leak.opens), ["{p1, t0}k1"]);
    assert_eq!(texts(&leak.makes), ["[{k1, p1, t0}K(p2), {p1, t7}k1]", "{t0}k1"]);
    assert!(!rows[16].listener.gains());
}

#[test]
fn a_term_in_a_thin_row_tells_whether_it_can_be_derived() {
    let key = Call::Term { kind: LONG_TERM_KEY, l: 1, r: 0 };
    let time = Call::Term { kind: TIME, l: 0, r: 5 };
    let locked = Call::Term { kind: ENCRYPTED, l: 1, r: 0 };
    let derives = |row: &Row| row.listener.derives;
    let rows = rows(&walk_of(&[key, time, locked], Names::default()));
    let shown: Vec<Option<bool>> = rows.iter().map(derives).collect();
    assert_eq!(shown, [None, Some(false), Some(true), Some(false)]);
}

#[test]
fn entries_tell_when_their_life_ends_and_when_they_go() {
    let rows = rows(&example("purges-each-tick.walk"));
    let changes = |record: usize| -> Vec<Change> {
        rows[record].entries.iter().map(|entry| entry.change).collect()
    };
    assert_eq!(changes(6), [Change::Remembered]);
    assert_eq!(changes(25), [Change::Over, Change::Kept]);
    assert_eq!(changes(28), [Change::Kept, Change::Forgotten]);
    assert_eq!(rows[6].entries[0].text, "p2, k1, Ta 0, live before 3");
}

/// The arrows of a page: from where, and to where.
fn arrows(html: &str) -> Vec<(&str, &str)> {
    attributes(html, "data-from").into_iter().zip(attributes(html, "data-to")).collect()
}

/// Under each mark case F's exchange, with the delivery as that mark has it.
#[test]
fn the_chart_draws_each_message_from_the_run_that_sent_it() {
    let exchanges = [("case-f", false), ("case-f-h5", true), ("case-f-h4", true)];
    for (name, passed_on) in exchanges {
        let html = sheet::html(&named(&top().join(format!("examples/{name}.names"))));
        let delivery = |to| match passed_on {
            true => vec![("run-0", to)],
            false => vec![("run-1", to), ("run-0", to)],
        };
        let mut expected = vec![("run-0", "run-1"), ("run-1", "run-0")];
        expected.extend(delivery("run-2"));
        expected.push(("run-2", "run-0"));
        expected.extend(delivery("run-3"));
        assert_eq!(arrows(&html), expected, "{name}");
        assert_eq!(html.matches("refused 18</text>").count(), 1, "{name}");
        let deliveries = html.matches("</tspan> delivery</text>").count();
        assert_eq!(deliveries, if passed_on { 2 } else { 0 }, "{name}");
    }
}

/// A pair that no run sent as a whole is drawn by its halves.
#[test]
fn the_chart_draws_halves_from_where_they_come() {
    let start = "r0 = panel asks cabinet\ns0 = server answers r0\n";
    let page = |mark: &str, sentences: &str| {
        let realm = "3 principals, ticket life 100, authenticator life 10";
        let names = "panel = 1, cabinet = 2";
        let text = format!("realm {mark} {realm}\n{names}\n{start}{sentences}");
        sheet::html(&script::read("text", &text).listed)
    };
    let html = page("H5", "r0 takes [s0.part, t7]");
    assert_eq!(arrows(&html)[1..], [("run-1", "run-0"), ("intruder", "run-0")]);
    assert!(html.contains("</tspan> part</text>") && html.contains("</tspan> ticket</text>"));
    // a ticket that the initiator passed on, with another authenticator
    let sentences = "r0 takes s0.reply\nleak s0\nc0 = cabinet waits for panel\n\
        c0 takes [s0.ticket, {panel, t3}k(s0)]";
    for (mark, sender) in [("HD", "run-1"), ("HW", "run-1"), ("H5", "run-0"), ("H4", "run-0")] {
        let html = page(mark, sentences);
        let last = arrows(&html).split_off(3);
        assert_eq!(last, [(sender, "run-2"), ("intruder", "run-2")], "{mark}");
    }
}

/// A request in the ticket's place is still the request of the run that asked.
#[test]
fn the_chart_keeps_what_is_passed_on_as_it_was_sent() {
    let text = "panel = 1, cabinet = 2\n\
        realm H5 3 principals, ticket life 100, authenticator life 10\n\
        r0 = panel asks cabinet\nr1 = cabinet asks panel\ns0 = server answers r0\n\
        r0 takes [s0.part, r1.request]\ns1 = server answers r0.ticket";
    let html = sheet::html(&script::read("text", text).listed);
    let expected = [("run-0", "run-2"), ("run-2", "run-0"), ("run-1", "run-0"), ("run-1", "run-3")];
    assert_eq!(arrows(&html), expected);
    assert_eq!(html.matches("</tspan> request</text>").count(), 3);
    assert_eq!(html.matches("</tspan> ticket</text>").count(), 0);
}

/// A ticket inside of the initiator's part makes one long word of both keys.
#[test]
fn terms_can_break_where_an_encryption_ends_in_another() {
    let html = sheet::html(&named(&top().join("examples/case-f-h4.names")));
    assert!(html.contains("t0}K(cabinet)<wbr>}K(panel)</code>"));
    assert!(!html.contains("K(cabinet)}K(panel)</code>"));
}

/// No count of initiator runs stops the program: only one is shown as the match.
#[test]
fn an_acceptance_is_matched_by_one_run_or_by_none() {
    let run = |role, stage, ta| Run { role, stage, a: 1, b: 2, k: 1, ts: 3, ta };
    let accepted = run(Role::Responder, Stage::Done, 5);
    let sent = run(Role::Initiator, Stage::Authenticated, 5);
    let others = [
        run(Role::Initiator, Stage::Opened, 5),
        run(Role::Initiator, Stage::Authenticated, 4),
        run(Role::Server, Stage::Done, 5),
    ];
    let of = |runs: &[Run]| matched(runs, &accepted);
    assert_eq!(of(&[others.to_vec(), vec![sent]].concat()), Acceptance::Matched(3));
    let not_covered = |why: &str| Acceptance::NotCovered(why.to_string());
    assert_eq!(of(&others), not_covered("none has its key and times"));
    assert_eq!(of(&[sent, sent]), not_covered("2 have its key and times"));
}
