//! The program as it is called: what it writes where, and its exit status.

use std::fs;
use std::io::Write;
use std::path::{Path, PathBuf};
use std::process::{Command, Output, Stdio};

fn example(name: &str) -> String {
    let root = PathBuf::from(env!("CARGO_MANIFEST_DIR")).join("../../examples");
    root.join(name).to_str().unwrap().to_string()
}

/// A folder of the test's own.
fn folder(name: &str) -> PathBuf {
    let folder = Path::new(env!("CARGO_TARGET_TMPDIR")).join(name);
    fs::create_dir_all(&folder).unwrap();
    folder
}

fn file(folder: &Path, name: &str, contents: impl AsRef<[u8]>) -> String {
    let path = folder.join(name);
    fs::write(&path, contents).unwrap();
    path.to_str().unwrap().to_string()
}

fn pogandir(arguments: &[&str], input: &[u8]) -> Output {
    let mut child = Command::new(env!("CARGO_BIN_EXE_pogandir"))
        .args(arguments)
        .stdin(Stdio::piped())
        .stdout(Stdio::piped())
        .stderr(Stdio::piped())
        .spawn()
        .unwrap();
    // a program that stops early does not read its input
    let _ = child.stdin.take().unwrap().write_all(input);
    child.wait_with_output().unwrap()
}

fn status(output: &Output) -> i32 {
    output.status.code().unwrap()
}

fn out(output: &Output) -> String {
    String::from_utf8(output.stdout.clone()).unwrap()
}

fn err(output: &Output) -> String {
    String::from_utf8(output.stderr.clone()).unwrap()
}

#[test]
fn listings_are_those_of_the_examples() {
    let listing = fs::read_to_string(example("case-f.listing")).unwrap();
    for name in ["case-f.walk", "case-f.txt", "case-f.names"] {
        let path = example(name);
        let listed = pogandir(&["list", &path], b"");
        assert_eq!(
            (status(&listed), out(&listed), err(&listed)),
            (0, listing.clone(), String::new())
        );
        let piped = pogandir(&["list", "-"], &fs::read(&path).unwrap());
        assert_eq!((status(&piped), out(&piped)), (0, listing.clone()));
    }
    let (one, two) = (example("case-f.walk"), example("case-d.walk"));
    let both = out(&pogandir(&["list", &one, &two], b""));
    assert!(both.starts_with(&format!("==> {one} <==\n{listing}==> {two} <==\n")), "{both}");
}

#[test]
fn check_has_a_verdict_and_a_status() {
    let good = pogandir(&["check", &example("case-f.names"), &example("leaked-key.names")], b"");
    assert_eq!((status(&good), err(&good)), (0, String::new()));
    assert!(out(&good).ends_with("2 files, 2 as expected, 0 not\n"), "{}", out(&good));
    let refused = pogandir(&["check", &example("case-f.walk")], b"");
    assert_eq!(status(&refused), 1);
    let told = out(&refused);
    assert!(told.contains("record 9: expected ok, got refused 18"), "{told}");
    assert!(
        told.contains("(KRB_AP_ERR_REPEAT): entry 0: p2, k1, Ta 0, remembered at record 6"),
        "{told}"
    );
    assert!(told.ends_with("9 of 10 as expected\n"), "{told}");
    assert_eq!(
        status(&pogandir(&["check", &example("case-d.names"), &example("case-f.walk")], b"")),
        1
    );
}

#[test]
fn statuses_are_1_2_and_3_and_the_highest_counts() {
    let folder = folder("statuses");
    let differs = file(&folder, "differs.txt", "HD n=3 Ls=1 La=1\nST 7 t=0 => refused 12");
    let bad = file(&folder, "bad.txt", "HD n=3 Ls=1 La=1\nST 7 q=0\n");
    let missing = folder.join("missing").to_str().unwrap().to_string();
    assert_eq!(status(&pogandir(&["check", &differs], b"")), 1);
    assert_eq!(status(&pogandir(&["list", &differs], b"")), 0);
    let told = pogandir(&["check", &bad], b"");
    assert_eq!((status(&told), out(&told)), (2, String::new()));
    assert_eq!(
        err(&told),
        format!("{bad}:2:6: error: ST has no field 'q'; it has run, a, b, m, t\n")
    );
    let failed = pogandir(&["list", &missing], b"");
    assert_eq!((status(&failed), out(&failed)), (3, String::new()));
    assert!(err(&failed).starts_with(&format!("pogandir: {missing}: ")), "{}", err(&failed));
    let all = pogandir(&["check", &differs, &bad, &missing, &example("case-f.names")], b"");
    assert_eq!(status(&all), 3);
    assert!(out(&all).ends_with("4 files, 1 as expected, 3 not\n"), "{}", out(&all));
    let nowhere = folder.join("no/such/folder").to_str().unwrap().to_string();
    assert_eq!(status(&pogandir(&["bytes", &example("case-f.txt"), "-o", &nowhere], b"")), 3);
}

#[test]
fn words_and_bytes_turn_into_each_other() {
    let folder = folder("turns");
    let walk = fs::read(example("case-f.walk")).unwrap();
    let path = folder.join("case-f.walk").to_str().unwrap().to_string();
    let made = pogandir(&["bytes", &example("case-f.names"), "--output", &path], b"");
    assert_eq!((status(&made), made.stdout.len()), (0, 0));
    assert_eq!(fs::read(&path).unwrap(), walk);
    let text = pogandir(&["text", &path], b"");
    assert_eq!(pogandir(&["bytes", "-"], &text.stdout).stdout, walk);
    // a recorded walk as a test of itself
    let expecting = pogandir(&["text", "--expect", &path], b"");
    assert!(out(&expecting).contains("ST 5 run=3 m=17 => refused 18\n"));
    assert!(out(&expecting).ends_with("end => runs 4 wire 5 cache 1 clock 0\n"));
    assert_eq!(status(&pogandir(&["check", "-"], &expecting.stdout)), 0);
    // with its last records cut off it no longer holds
    let last = "ST 2 a=1 b=2 => ok 3 +0\nST 5 run=3 m=17 => refused 18\n";
    let cut = out(&expecting).replace(last, "");
    assert_eq!(status(&pogandir(&["check", "-"], cut.as_bytes())), 1);
}

/// An output file has all of it, and is not touched for an input that is bad.
#[test]
fn an_output_file_is_written_whole_or_not_at_all() {
    let folder = folder("whole");
    let bad = file(&folder, "bad.txt", "HD n=x");
    let kept = file(&folder, "kept.walk", "as it was");
    assert_eq!(status(&pogandir(&["bytes", &bad, "-o", &kept], b"")), 2);
    assert_eq!(fs::read(&kept).unwrap(), b"as it was");
    let both = folder.join("both").to_str().unwrap().to_string();
    let (one, two) = (example("case-f.walk"), example("case-d.walk"));
    assert_eq!(status(&pogandir(&["list", &one, &two, "-o", &both], b"")), 0);
    let printed = pogandir(&["list", &one, &two], b"");
    assert_eq!(fs::read_to_string(&both).unwrap(), out(&printed));
    assert_eq!(status(&pogandir(&["check", &one, &two, "--json", "-o", &both], b"")), 1);
    assert!(fs::read_to_string(&both).unwrap().starts_with("[{\"file\""));
}

#[test]
fn what_is_not_expected_is_told_in_words() {
    let folder = folder("words");
    let walk = example("case-f.walk");
    let told = pogandir(&["bytes", &walk], b"");
    assert_eq!(status(&told), 2);
    assert!(
        err(&told).contains("this is a walk file and no text; `pogandir text "),
        "{}",
        err(&told)
    );
    let told = pogandir(&["text", &example("case-f.txt")], b"");
    assert_eq!(status(&told), 2);
    assert!(err(&told).contains("this is a text already"), "{}", err(&told));
    let wide = file(&folder, "wide.txt", b"\xff\xfeH\0D\0");
    assert!(err(&pogandir(&["bytes", &wide], b"")).contains("UTF-16"));
    for command in ["list", "check", "sheet"] {
        assert!(err(&pogandir(&[command, &wide], b"")).contains("UTF-16"), "{command}");
    }
    let latin = file(&folder, "latin.names", b"# f\xfcr alle\nrealm 3 principals\n");
    assert!(err(&pogandir(&["check", &latin], b"")).contains("no characters in UTF-8"));
    let named = pogandir(&["sheet", "--names", "a=1", &example("case-f.names")], b"");
    assert!(err(&named).contains("--names is for walk files"));
    let noise = file(&folder, "noise", b"\0\x01\x02");
    assert!(err(&pogandir(&["bytes", &noise], b"")).contains("no characters"));
    let short = file(&folder, "short.walk", b"H");
    assert!(err(&pogandir(&["list", &short], b"")).contains("--walk reads it as a walk file"));
    // bytes that are text by chance are listed as a file where that is asked for
    let listed = pogandir(&["list", "--walk", "-"], b"HD no walk");
    assert_eq!(out(&listed), "0 file refused 1\n");
}

#[test]
fn the_command_line_is_told_in_words() {
    let cases: [(&[&str], &str); 9] = [
        (&[], "a command is expected: list, check, sheet, text, bytes"),
        (&["lst"], "'lst' is no command"),
        (&["list"], "a file is expected; - is standard input"),
        (&["sheet", "a", "b"], "this command takes one file"),
        (&["list", "--jason", "a"], "'--jason' is no option"),
        (&["list", "--csv", "a"], "--csv is for sheet"),
        (&["sheet", "--names", "panel", "a"], "'panel' is not of the form name=number"),
        (&["list", "a", "-o"], "-o needs a value"),
        (&["sheet", "a", "-o", "a"], "the output would take the place of an input"),
    ];
    for (arguments, message) in cases {
        let told = pogandir(arguments, b"");
        assert_eq!((status(&told), out(&told)), (2, String::new()), "{arguments:?}");
        assert!(err(&told).contains(message), "{arguments:?}: {}", err(&told));
    }
    for arguments in [&["--help"][..], &["list", "-h"], &["help"]] {
        let help = pogandir(arguments, b"");
        assert_eq!(status(&help), 0);
        assert!(out(&help).contains("Exit status: 0 as expected"));
    }
    let version = out(&pogandir(&["--version"], b""));
    assert_eq!(version, format!("pogandir {}\n", env!("CARGO_PKG_VERSION")));
}

/// What a value of JSON leaves of the text behind it.
fn json_value(text: &str) -> &str {
    let text = text.trim_start();
    match text.chars().next().expect("a value") {
        '{' => json_items(&text[1..], '}', |item| {
            let rest = json_value(item).trim_start();
            json_value(rest.strip_prefix(':').expect("a colon"))
        }),
        '[' => json_items(&text[1..], ']', json_value),
        '"' => json_string(&text[1..]),
        _ => {
            let end = text.find([',', ']', '}', '\n', ' ']).unwrap_or(text.len());
            let is_word = ["true", "false", "null"].contains(&&text[..end]);
            assert!(is_word || text[..end].parse::<i64>().is_ok(), "{}", &text[..end]);
            &text[end..]
        }
    }
}

fn json_items<'a>(mut text: &'a str, close: char, item: impl Fn(&'a str) -> &'a str) -> &'a str {
    loop {
        text = text.trim_start();
        if let Some(rest) = text.strip_prefix(close) {
            return rest;
        }
        text = item(text).trim_start();
        text = text.strip_prefix(',').unwrap_or(text);
    }
}

fn json_string(text: &str) -> &str {
    let mut escaped = false;
    for (at, character) in text.char_indices() {
        match character {
            _ if escaped => escaped = false,
            '\\' => escaped = true,
            '"' => return &text[at + 1..],
            _ => assert!(character >= ' ', "a control character"),
        }
    }
    panic!("no end of a string");
}

#[test]
fn json_is_json() {
    let folder = folder("json");
    let bad = file(&folder, "ba\"d\\.txt", "HD n=3 Ls=1 La=1\nST 7 \"q\"=0\n\tterm [\n");
    let missing = folder.join("missing").to_str().unwrap().to_string();
    let good = example("leaked-key.names");
    let warned = file(&folder, "warned.txt", "HD n=2 Ls=1 La=1\n");
    let sheet = out(&pogandir(&["sheet", "--json", &warned], b""));
    assert_eq!(json_value(&sheet).trim(), "", "{sheet}");
    assert!(sheet.contains("\"severity\": \"warning\""), "{sheet}");
    for command in ["list", "check"] {
        let made = pogandir(&[command, "--json", &good, &bad, &missing], b"");
        assert_eq!(status(&made), 3);
        let text = out(&made);
        assert_eq!(json_value(&text).trim(), "", "{text}");
    }
    let made = pogandir(&["check", "--json", &bad], b"");
    assert_eq!((status(&made), err(&made)), (2, String::new()));
    assert!(out(&made).contains("\"as_expected\": false"), "{}", out(&made));
    assert!(
        out(&made).contains("\"line\": 2, \"column\": 6, \"severity\": \"error\""),
        "{}",
        out(&made)
    );
    let one = out(&pogandir(&["list", "--json", &example("case-d.walk")], b""));
    assert!(one.contains("\"listing\": [\"0 HD ok\", \"1 ST ok - +0\""), "{one}");
}

/// Nobody has to read what is told.
#[test]
fn closed_outputs_end_it_with_a_status() {
    let program = env!("CARGO_BIN_EXE_pogandir");
    let folder = folder("closed");
    let bad = file(&folder, "bad.txt", "ST q\n".repeat(5000));
    let scripts = [
        (format!("{program} --help > /dev/full"), 3),
        (format!("{program} --version > /dev/full"), 3),
        (format!("{program} check {bad} 2> /dev/full"), 2),
        (format!("{program} check $(printf '\\377')"), 2),
        (format!("{program} list -- {}", example("case-f.walk")), 0),
    ];
    for (script, expected) in scripts {
        let done = Command::new("sh").args(["-c", &script]).output().unwrap();
        assert_eq!(status(&done), expected, "{script}: {}", err(&done));
    }
}
