//! The comparison itself: it finds nothing where nothing is, and what is there.

use std::path::PathBuf;
use std::process::Command;

use compare::{first_difference, Difference, Engine, Outcome};

type Listing = fn(&[u8]) -> Vec<u8>;

fn same(file: &[u8]) -> Vec<u8> {
    reference::listing(file).into_bytes()
}

/// Says that a replay is fine.
fn forgetful(file: &[u8]) -> Vec<u8> {
    reference::listing(file).replace("refused 18", "ok 0").into_bytes()
}

/// Says of each term that it is new.
fn all_new(file: &[u8]) -> Vec<u8> {
    reference::listing(file).replace(" old\n", " new\n").into_bytes()
}

/// Leaves out that a step added nothing.
fn silent(file: &[u8]) -> Vec<u8> {
    reference::listing(file).replace(" +0\n", "\n").into_bytes()
}

/// Adds up what the steps have added.
fn adding_up(file: &[u8]) -> Vec<u8> {
    let mut sum = 0;
    let line = |line: &str| match line.rsplit_once('+') {
        Some((before, added)) => {
            sum += added.parse::<usize>().unwrap();
            format!("{before}+{sum}\n")
        }
        None => format!("{line}\n"),
    };
    reference::listing(file).lines().map(line).collect::<String>().into_bytes()
}

/// Has the rules of the first mark under the second.
fn taken_for(file: &[u8], first: &str, second: &str) -> Vec<u8> {
    if !file.starts_with(second.as_bytes()) {
        return same(file);
    }
    let other = [first.as_bytes(), &file[2..]].concat();
    reference::listing(&other).replacen(first, second, 1).into_bytes()
}

fn old_rules_under_h5(file: &[u8]) -> Vec<u8> {
    taken_for(file, "HW", "H5")
}

fn old_rules_under_h4(file: &[u8]) -> Vec<u8> {
    taken_for(file, "HW", "H4")
}

fn h4_under_h5(file: &[u8]) -> Vec<u8> {
    taken_for(file, "H4", "H5")
}

fn h5_under_hw(file: &[u8]) -> Vec<u8> {
    taken_for(file, "H5", "HW")
}

fn over(engine: Engine, files: u64) -> Outcome {
    let mut outcome = Outcome::default();
    for number in 0..files {
        outcome.compare(&engine, &number.to_string(), &generator::walk_file(7, number));
    }
    outcome
}

#[test]
fn equal_engines_do_not_differ() {
    let outcome = over(Engine::Function(same), 300);
    assert_eq!((outcome.compared, outcome.different, outcome.first), (300, 0, None));
}

#[test]
fn a_wrong_engine_is_found() {
    let outcome = over(Engine::Function(forgetful), 300);
    assert!(outcome.different > 10);
    let (_, difference) = outcome.first.unwrap();
    assert!(difference.contains("refused 18"), "{difference}");
}

#[test]
fn engines_that_miscount_terms_are_found() {
    for (engine, line) in [(all_new as Listing, " old"), (silent, " +0"), (adding_up, " +")] {
        let outcome = over(Engine::Function(engine), 300);
        assert!(outcome.different > 10, "{}", outcome.different);
        let (_, difference) = outcome.first.unwrap();
        assert!(difference.contains(line), "{difference}");
    }
}

#[test]
fn engines_that_take_one_rule_set_for_another_are_found() {
    let wrong: [Listing; 4] = [old_rules_under_h5, old_rules_under_h4, h4_under_h5, h5_under_hw];
    for engine in wrong {
        let outcome = over(Engine::Function(engine), 300);
        assert!(outcome.different > 20, "{}", outcome.different);
    }
}

#[test]
fn first_differences() {
    let cases = [
        ("", "", None),
        ("a\n", "a\n", None),
        ("a\nb\n", "a\nc\n", Some((2, "b\\n", "c\\n"))),
        ("a\nb\n", "a\n", Some((2, "b\\n", "(nothing)"))),
        ("a\n", "a\nb\n", Some((2, "(nothing)", "b\\n"))),
        ("a\n", "a", Some((1, "a\\n", "a"))),
        ("a\n", "a\r\n", Some((1, "a\\n", "a\\r\\n"))),
    ];
    for (reference, engine, expected) in cases {
        let expected = expected.map(|(line, reference, engine): (usize, &str, &str)| Difference {
            line,
            reference: reference.into(),
            engine: engine.into(),
        });
        assert_eq!(first_difference(reference.as_bytes(), engine.as_bytes()), expected);
    }
}

#[test]
fn a_program_is_fed_and_read() {
    // A program that echoes its input gives no listing.
    let engine = Engine::Program(PathBuf::from("cat"));
    assert_eq!(engine.listing(&[7; 200_000]).unwrap(), vec![7; 200_000]);
    let outcome = over(engine, 3);
    assert_eq!((outcome.compared, outcome.different), (3, 3));
}

#[test]
fn programs_that_fail_or_do_not_start_differ() {
    for program in ["false", "./no-such-program"] {
        assert!(Engine::Program(PathBuf::from(program)).listing(b"").is_err());
    }
}

#[test]
fn a_program_that_does_not_read_is_judged_by_its_listing() {
    let engine = Engine::Program(PathBuf::from("true"));
    assert_eq!(engine.listing(&[7; 200_000]).unwrap(), b"");
}

/// The command's status, and what it printed on either stream.
fn command(arguments: &[&str]) -> (Option<i32>, String) {
    let output = Command::new(env!("CARGO_BIN_EXE_compare")).args(arguments).output().unwrap();
    let printed = [output.stdout, output.stderr].concat();
    (output.status.code(), String::from_utf8(printed).unwrap())
}

#[test]
fn the_command_reports_by_its_status() {
    let (status, output) =
        command(&["--program", "cat", "--seed", "1", "--count", "5", "--from", "10"]);
    assert_eq!(status, Some(1));
    assert!(output.starts_with(
        "5 files compared, 5 differ\nfirst: generated file: --seed 1 --file 10\nline 1\n"
    ));
    assert_eq!(command(&["--program", "cat"]).0, Some(2));
    assert_eq!(command(&["--program"]).0, Some(2));
    assert_eq!(command(&["--program", "cat", "--files", "no-such-directory"]).0, Some(2));
}

#[test]
fn damaged_files_are_named_as_such() {
    let (status, output) =
        command(&["--program", "cat", "--seed", "1", "--damaged", "--count", "5"]);
    assert_eq!(status, Some(1));
    assert!(output.contains("first: generated file: --seed 1 --file 0 --damaged\n"), "{output}");
}

#[test]
#[cfg(not(feature = "engine"))]
fn a_build_without_the_engine_says_how_to_get_it() {
    assert!(Engine::linked().is_none());
    let (status, output) = command(&["--seed", "1", "--count", "5"]);
    assert_eq!(status, Some(2));
    assert!(output.contains("--features engine"), "{output}");
}

#[test]
#[cfg(feature = "engine")]
fn the_engine_runs_in_this_process() {
    let outcome = over(Engine::linked().unwrap(), 300);
    assert_eq!((outcome.compared, outcome.different, outcome.first), (300, 0, None));
    for kind in [&["--damaged"][..], &[]] {
        let run = [&["--seed", "3", "--count", "500"], kind].concat();
        assert_eq!(command(&run), (Some(0), "500 files compared, 0 differ\n".to_string()));
    }
    let examples = concat!(env!("CARGO_MANIFEST_DIR"), "/../../examples");
    let (status, output) = command(&["--files", examples]);
    assert_eq!(status, Some(0), "{output}");
}
