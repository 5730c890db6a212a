//! The front end's tables have the numbers of the C header, which is itself held
//! against the engine's sources.

use std::collections::BTreeMap;
use std::fs;
use std::path::Path;

use pogandir::vocabulary::{Mark, KINDS, LONGEST_FILE, MARKS, REFUSALS, STEPS};
use pogandir::vocabulary::{FIRST_OF_INTRUDER, MOST_NONCE_OR_KEY};

/// The header's enumerators whose names begin so, by the rest of their names.
fn numbers(prefix: &str) -> BTreeMap<String, u32> {
    let path = Path::new(env!("CARGO_MANIFEST_DIR")).join("../../include/pogandir.h");
    let header = fs::read_to_string(path).unwrap();
    let mut found = BTreeMap::new();
    for line in header.lines() {
        let Some((name, rest)) = line.trim().split_once(" = ") else { continue };
        let Some(name) = name.strip_prefix(prefix) else { continue };
        let digits = rest.split([',', ' ', '/']).next().unwrap();
        let hexadecimal = digits.strip_prefix("0x").map(|digits| u32::from_str_radix(digits, 16));
        found.insert(name.to_string(), hexadecimal.unwrap_or_else(|| digits.parse()).unwrap());
    }
    assert!(!found.is_empty(), "{prefix}");
    found
}

fn sorted(numbers: impl IntoIterator<Item = u32>) -> Vec<u32> {
    let mut numbers: Vec<u32> = numbers.into_iter().collect();
    numbers.sort();
    numbers
}

#[test]
fn marks_kinds_steps_and_refusals_are_those_of_the_header() {
    let marks = numbers("POGANDIR_MARK_");
    assert_eq!(marks.len(), MARKS.len());
    for (letters, number) in marks {
        let mark = Mark::named(&letters).unwrap_or_else(|| panic!("{letters}"));
        assert_eq!(u32::from(mark.number()), number, "{letters}");
    }
    for (letters, rules) in numbers("POGANDIR_RULES_") {
        let mark = Mark::named(&letters).unwrap_or_else(|| panic!("{letters}"));
        assert_eq!(mark.rules().map(u32::from), Some(rules), "{letters}");
    }
    let kinds = sorted(numbers("POGANDIR_KIND_").into_values());
    assert_eq!(kinds, sorted(KINDS.map(|kind| kind.number.into())));
    let steps = sorted(numbers("POGANDIR_STEP_").into_values());
    assert_eq!(steps, sorted(STEPS.map(|step| step.number.into())));
    let refusals = sorted(numbers("POGANDIR_REFUSED_").into_values());
    assert_eq!(refusals, sorted(REFUSALS.map(|refusal| refusal.number.into())));
}

#[test]
fn limits_and_version_are_those_of_the_header() {
    let all = numbers("POGANDIR_");
    let of = |name: &str| all[name] as usize;
    assert_eq!(of("TERMS"), engine::TERM_PLACES);
    assert_eq!(of("RUNS"), engine::MAX_RUNS);
    assert_eq!(of("RUN_WORDS"), engine::RUN_WORDS);
    assert_eq!(of("WIRE_WORDS"), engine::WIRE_WORDS);
    assert_eq!(of("CACHE_PLACES"), engine::CACHE_PLACES);
    assert_eq!(of("RECORD_WORDS"), engine::RECORD_WORDS);
    assert_eq!(of("LISTING_BYTES"), engine::LISTING_BYTES);
    assert_eq!(of("FILE_BYTES"), LONGEST_FILE);
    assert_eq!(of("FIRST_OWN"), usize::from(FIRST_OF_INTRUDER));
    assert_eq!(of("LAST_NUMBER"), usize::from(MOST_NONCE_OR_KEY));
    let path = Path::new(env!("CARGO_MANIFEST_DIR")).join("../../include/pogandir.h");
    let version = format!("#define POGANDIR_VERSION \"{}\"\n", env!("CARGO_PKG_VERSION"));
    assert!(fs::read_to_string(path).unwrap().contains(&version));
}
