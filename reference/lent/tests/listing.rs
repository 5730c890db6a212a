//! Whole files through the proved engine: its listings, and what it does to the
//! buffer.

use std::fs;
use std::path::PathBuf;

use lent::{list, listing, LISTING_BYTES};

const CASE_F: &[u8] = include_bytes!("../../../examples/case-f.walk");

#[test]
fn examples_have_their_listings() {
    let directory = PathBuf::from(env!("CARGO_MANIFEST_DIR")).join("../../examples");
    let mut examples = 0;
    for entry in fs::read_dir(directory).unwrap() {
        let path = entry.unwrap().path();
        if path.extension().is_some_and(|extension| extension == "walk") {
            let expected = fs::read(path.with_extension("listing")).unwrap();
            assert_eq!(listing(&fs::read(&path).unwrap()), expected, "{}", path.display());
            examples += 1;
        }
    }
    assert!(examples >= 10);
}

#[test]
fn generated_files_have_the_listings_of_the_reference() {
    for number in 0..1000 {
        let file = generator::walk_file(2, number);
        assert_eq!(listing(&file), reference::listing(&file).into_bytes(), "file {number}");
    }
}

#[test]
fn a_buffer_that_is_too_short_stays_as_it_was() {
    for length in [0, 1, LISTING_BYTES - 1] {
        let before: Vec<u8> = (0..length).map(|at| at as u8).collect();
        for file in [CASE_F, b"", b"no walk"] {
            let mut buffer = before.clone();
            assert_eq!(list(file, &mut buffer), None);
            assert!(buffer == before);
        }
    }
}

/// The listing, whatever the buffer held, and the bytes behind it as they were.
#[test]
fn only_the_listing_is_written() {
    let fills: [fn(usize) -> u8; 3] = [|_| 0, |_| 255, |at| at as u8];
    for length in [LISTING_BYTES, LISTING_BYTES + 1, LISTING_BYTES + 4096] {
        for fill in fills {
            let before: Vec<u8> = (0..length).map(fill).collect();
            for file in [CASE_F, b"", b"no walk", &[b'H'; 65_537], &longest()] {
                let mut buffer = before.clone();
                let count = list(file, &mut buffer).unwrap();
                assert!(buffer[..count] == *reference::listing(file).as_bytes());
                assert!(buffer[count..] == before[count..]);
            }
        }
    }
}

/// 65,536 bytes: the header, and as many records as fit.
fn longest() -> Vec<u8> {
    let mut file = CASE_F.to_vec();
    while file.len() + 7 <= 65_536 {
        file.extend(b"TM\x09\xff\xff\xff\xff");
    }
    file.resize(65_536, b'T');
    file
}

#[test]
fn a_long_listing_leaves_nothing_to_the_next() {
    let long = listing(&longest());
    assert!(long.len() > 100_000);
    assert_eq!(listing(b""), b"0 file refused 1\n");
    assert_eq!(listing(&longest()), long);
}
