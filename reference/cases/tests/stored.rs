//! The stored cases: what is stored is what is made, a program's stored input
//! gives its stored output, and the calls meet every refusal.

use std::fs;
use std::path::PathBuf;

use cases::{calls::World, derive::Questions, output, terms::Table};

fn stored(name: &str, file: &str) -> String {
    let crates = PathBuf::from(env!("CARGO_MANIFEST_DIR")).join("../../crates");
    fs::read_to_string(crates.join(name).join(file)).unwrap()
}

#[test]
fn the_files_are_as_made() {
    for made in cases::all() {
        assert!(stored(made.name, "stdin") == made.input, "{}/stdin", made.name);
        assert!(stored(made.name, "stdout") == made.output, "{}/stdout", made.name);
    }
}

#[test]
fn the_stored_input_gives_the_stored_output() {
    let calls = output(World::default(), &stored("call_cases", "stdin"));
    assert_eq!(calls, stored("call_cases", "stdout"));
    let terms = output(Table::default(), &stored("term_tables", "stdin"));
    assert_eq!(terms, stored("term_tables", "stdout"));
    let questions = output(Questions::default(), &stored("derive_cases", "stdin"));
    assert_eq!(questions, stored("derive_cases", "stdout"));
}

#[test]
fn every_line_has_68_bytes_and_no_blank_at_its_end() {
    for made in cases::all() {
        for line in made.input.lines() {
            assert!(line.len() == 67 && !line.ends_with(' '), "{}: {line}", made.name);
        }
    }
}

#[test]
fn every_refusal_is_met() {
    let calls = [1, 2, 4, 5, 6, 10, 11, 12, 13, 14, 15, 16, 17, 18, 19, 20, 22];
    let terms = [4, 5, 6, 10, 20];
    for (name, numbers) in [("call_cases", &calls[..]), ("term_tables", &terms[..])] {
        let output = stored(name, "stdout");
        for number in numbers {
            assert!(output.contains(&format!(": refused {number}\n")), "{name}: {number}");
        }
    }
}

/// Each step with each number of terms that it can add, as its text says.
#[test]
fn every_number_of_terms_is_added() {
    let output = stored("call_cases", "stdout");
    let under = |mark: &str| [(format!("3 under {mark}"), 12), (format!("4 under {mark}"), 4)];
    let apart = [(1, 5), (3, 11), (4, 3), (5, 1)].map(|(step, most)| (step.to_string(), most));
    for (step, most) in [&apart[..], &under("H5"), &under("H4")].concat() {
        for present in 0..=most {
            let text = format!("step {step}, {present} of its terms present: ok ");
            let answer = output.lines().find_map(|line| line.strip_prefix(&text)).unwrap();
            let added = answer.split([' ', ',']).nth(1).unwrap();
            assert_eq!(added, format!("+{}", most - present), "{text}");
        }
    }
    for line in output.lines().filter(|line| line.contains(": ok ")) {
        let (_, answer) = line.split_once(": ok ").unwrap();
        assert!(
            answer.split([' ', ',']).nth(1).is_some_and(|word| word.starts_with('+')),
            "{line}"
        );
    }
    for state in ["old", "new"] {
        assert!(output.lines().any(|line| line.contains(&format!(" {state}"))), "{state}");
    }
}

/// The same lists by either way of forgetting, with the same left.
#[test]
fn step_8_forgets_what_forget_does() {
    let output = stored("call_cases", "stdout");
    let after = |how: &str| -> Vec<String> {
        let lines = output.lines().filter_map(|line| line.strip_prefix(how)?.split_once(": ok"));
        let lists = lines.filter(|(list, _)| list.ends_with(" forgotten"));
        lists.map(|(list, left)| list.to_string() + left.trim_start_matches(" - +0")).collect()
    };
    assert_eq!(after("step 8, ").len(), 11);
    assert_eq!(after("step 8, "), after("forget alone, "));
}

#[test]
fn a_refused_call_changes_nothing() {
    for name in ["call_cases", "term_tables"] {
        for line in stored(name, "stdout").lines() {
            if let Some((_, refused)) = line.split_once(": refused ") {
                assert!(refused.parse::<u8>().is_ok(), "{name}: {line}");
            }
        }
    }
}
