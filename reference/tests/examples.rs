//! The examples: their words, bytes and listings agree.

mod common;

use std::fs;
use std::path::PathBuf;

#[test]
fn words_bytes_and_listings_agree() {
    let directory = PathBuf::from(env!("CARGO_MANIFEST_DIR")).join("../examples");
    let mut examples = 0;
    for entry in fs::read_dir(&directory).unwrap() {
        let path = entry.unwrap().path();
        if path.extension().is_none_or(|extension| extension != "txt") {
            continue;
        }
        let text = fs::read_to_string(&path).unwrap();
        let file = fs::read(path.with_extension("walk")).unwrap();
        let listing = fs::read_to_string(path.with_extension("listing")).unwrap();
        assert_eq!(common::walk(&text), file, "{}", path.display());
        assert_eq!(reference::listing(&file), listing, "{}", path.display());
        check_comments(&text, &listing);
        examples += 1;
    }
    assert!(examples >= 10);
}

/// A comment that says "refused" and a number stands at a record that is; one that
/// ends in "old", or in "+" and a number, at a line that ends so.
fn check_comments(text: &str, listing: &str) {
    let records = text.lines().filter(|line| !line.starts_with('#') && !line.trim().is_empty());
    for (record, line) in records.zip(listing.lines()) {
        let said =
            record.split_once("# refused ").map(|(_, rest)| rest.split(':').next().unwrap().trim());
        let found = line.split_once(" refused ").map(|(_, number)| number);
        assert!(said.is_none() || said == found, "{record} | {line}");
        let last = record.rsplit(' ').next().unwrap();
        let tells = record.contains('#') && (last == "old" || last.starts_with('+'));
        assert!(!tells || line.ends_with(&format!(" {last}")), "{record} | {line}");
    }
}
