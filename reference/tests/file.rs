//! The file: its length, its header, and where reading ends.

mod common;

use common::{check, record, walk};
use reference::listing;

const HEADER: &str = "HD n=3 Ls=1 La=1";

fn refused(file: &[u8], number: u8) {
    assert_eq!(listing(file), format!("0 file refused {number}\n"));
}

#[test]
fn the_empty_file_is_refused() {
    refused(b"", 1);
}

#[test]
fn a_header_alone_is_a_walk() {
    assert_eq!(listing(&record(HEADER)), "0 HD ok\nend runs 0 wire 0 cache 0 clock 0\n");
}

#[test]
fn a_header_cut_short_is_refused() {
    for length in 1..13 {
        refused(&record(HEADER)[..length], 1);
    }
}

#[test]
fn a_header_cut_short_with_bad_values_gives_1() {
    refused(&record("HD n=2")[..12], 1);
}

#[test]
fn another_first_mark_is_refused() {
    for mark in ["h5", "4H", "HN", "HO", "RG", "TM", "ST", "hd", "hw", "DH", "WH", "\0\0"] {
        for header in [HEADER, "HW n=32 Ls=1 La=1", "HD n=2"] {
            let mut file = record(header);
            file[..2].copy_from_slice(mark.as_bytes());
            refused(&file, 1);
            file.extend([0; 40]);
            refused(&file, 1);
        }
    }
}

#[test]
fn bad_header_values_are_refused() {
    for header in [
        "HD n=0 Ls=1 La=1",
        "HD n=2 Ls=1 La=1",
        "HD n=17 Ls=1 La=1",
        "HD n=255 Ls=1 La=1",
        "HD n=3 flags=1 Ls=1 La=1",
        "HD n=3 flags=8 Ls=1 La=1",
        "HD n=3 flags=0x8000 Ls=1 La=1",
        "HD n=15 flags=0x8000 Ls=1 La=1",
        "HD n=16 flags=1 Ls=1 La=1",
        "HD n=3 Ls=0 La=1",
        "HD n=3 Ls=1 La=0",
        "HD n=2 flags=1 Ls=0 La=0",
    ] {
        refused(&record(header), 2);
        refused(&[record(header), record("ST 7 t=1")].concat(), 2);
        refused(&[record(header), b"XX".to_vec()].concat(), 2);
    }
}

#[test]
fn header_values_at_their_ends_pass() {
    for header in [
        "HD n=3 flags=6 Ls=1 La=1",
        "HD n=16 flags=0xfffe Ls=1 La=1",
        "HD n=15 flags=0x7ffe Ls=1 La=1",
        "HD n=3 Ls=4294967295 La=4294967295",
    ] {
        check(&format!("{header} => ok\nend runs 0 wire 0 cache 0 clock 0"));
    }
}

#[test]
fn numbers_are_high_byte_first() {
    let header = b"HD\x03\0\x02\0\0\x01\0\0\0\0\x01".to_vec();
    let records = [
        &b"ST\x07\0\0\0\0\0\x01\x02\x03\x04"[..],
        b"TM\x01\x01\x02\x03\x04",
        b"TM\x03\0\x01\0\0",
        b"ST\x0a\0\0\0\0\x01\0\0\0\0",
        b"ST\x0a\0\0\0\x01\0\0\0\0\0",
    ];
    let expected = "\
0 HD ok
1 ST ok - +0
2 TM 0 new
3 TM 1 new
4 ST ok - +0
5 ST refused 6
end runs 0 wire 0 cache 0 clock 16909060
";
    assert_eq!(listing(&[header, records.concat()].concat()), expected);
}

#[test]
fn broken_records_end_reading_with_a_last_line() {
    for rest in [
        &b"T"[..],
        b"S",
        b"H",
        b"\0",
        b"TM",
        b"TM\0\0\0\0",
        b"ST",
        b"ST\x01\0\x01\x02\0\0\0\0\0",
        b"TS\0\0\0\0\0",
        b"XX",
        b"tm\0\0\0\0\0",
        b"RG\0\0\0\0\0\0\0\0\0\0\0",
    ] {
        let file = [walk(&format!("{HEADER}\nTM 9\nST 7 t=3")), rest.to_vec()].concat();
        let expected = "0 HD ok\n1 TM refused 4\n2 ST ok - +0\n3 file refused 3\n";
        assert_eq!(listing(&file), format!("{expected}end runs 0 wire 0 cache 0 clock 3\n"));
    }
}

#[test]
fn a_second_header_ends_reading() {
    let file = [record(HEADER), record(HEADER), record("ST 7 t=3")].concat();
    assert_eq!(listing(&file), "0 HD ok\n1 file refused 3\nend runs 0 wire 0 cache 0 clock 0\n");
}

#[test]
fn nothing_after_a_broken_record_is_read() {
    let file = [record(HEADER), b"XX".to_vec(), record("ST 7 t=3")].concat();
    assert_eq!(listing(&file), "0 HD ok\n1 file refused 3\nend runs 0 wire 0 cache 0 clock 0\n");
}

#[test]
fn reading_goes_on_after_other_refusals() {
    check(
        "HD n=3 Ls=1 La=1 => ok
         TM 7            => refused 4
         ST 0            => refused 4
         ST 7 a=1 t=9    => refused 5
         TM 0 L=3        => refused 6
         ST 7 t=2        => ok - +0
         ST 7 t=1        => refused 12
         ST 7 t=3        => ok - +0
         end runs 0 wire 0 cache 0 clock 3",
    );
}

/// A header and steps, the last of them cut so that the file has this length.
fn file_of(length: usize) -> Vec<u8> {
    let mut file = record(HEADER);
    while file.len() < length {
        file.extend(record("ST 7 t=1"));
    }
    file.truncate(length);
    file
}

#[test]
fn a_file_of_65536_bytes_is_read() {
    // 65,536 - 13 = 5,460 * 12 + 3
    let listing = listing(&file_of(65_536));
    assert_eq!(listing.lines().count(), 1 + 5_460 + 2);
    assert!(listing.ends_with("5461 file refused 3\nend runs 0 wire 0 cache 0 clock 1\n"));
}

#[test]
fn a_file_of_65536_bytes_in_whole_records_is_read() {
    // 13 + 7 * 9 + 12 * 5,455 = 65,536
    let mut file = record(HEADER);
    for _ in 0..9 {
        file.extend(record("TM 0 L=1"));
    }
    while file.len() < 65_536 {
        file.extend(record("ST 7 t=1"));
    }
    assert_eq!(file.len(), 65_536);
    let listing = listing(&file);
    assert!(listing.ends_with("5464 ST ok - +0\nend runs 0 wire 0 cache 0 clock 1\n"));
}

#[test]
fn a_file_of_65537_bytes_is_refused_as_a_whole() {
    refused(&file_of(65_537), 1);
    refused(&vec![0; 65_537], 1);
    refused(&vec![0; 1_000_000], 1);
    let mut bad_header = file_of(65_537);
    bad_header[2] = 2;
    refused(&bad_header, 1);
}

#[test]
fn a_bad_header_in_a_file_of_65536_bytes_gives_2() {
    let mut file = file_of(65_536);
    file[2] = 2;
    refused(&file, 2);
}
