//! The generated writes: the same for the same seed, every cell met, and each
//! answer the one of a second reading.

use std::collections::HashSet;

use generator::coverage::Tally;
use generator::write;
use generator::writes::coverage::{cells_met, report};
use generator::writes::{cells, Write};
use reference::file::Header;
use reference::marks::mark;

const SEED: u64 = 1;
const HEADER: Header = Header {
    mark: mark(b"HD"),
    principals: 4,
    flags: 2,
    ticket_life: 100,
    authenticator_life: u32::MAX,
};

#[test]
fn a_write_depends_on_seed_and_number_alone() {
    let first: Vec<Write> = (0..200).map(|number| write(SEED, number)).collect();
    let again: Vec<Write> = (0..200).rev().map(|number| write(SEED, number)).collect();
    assert!(first.iter().eq(again.iter().rev()));
    let other: Vec<Write> = (0..200).map(|number| write(SEED + 1, number)).collect();
    assert_ne!(first, other);
}

#[test]
fn every_cell_is_met_and_none_that_is_ruled_out() {
    let mut tally = Tally::default();
    for number in 0..10_000 {
        tally.meet(cells_met(&write(SEED, number)));
    }
    let (table, complaints) = report(&tally);
    assert!(complaints.is_empty(), "{complaints:?}");
    assert!(table.starts_with("10000 writes\nwrite / ok: "));
    for answer in ["ok", "refused 2", "refused 4", "refused 5", "refused 6", "refused 21"] {
        assert!(tally.count(&format!("write / {answer}")) > 500, "{answer}");
    }
}

#[test]
fn other_seeds_make_writes() {
    for seed in 2..8 {
        for number in 0..300 {
            cells_met(&write(seed, number));
        }
    }
}

#[test]
fn cells_are_listed_once() {
    let all = cells::all();
    let distinct: HashSet<&String> = all.iter().collect();
    assert_eq!(distinct.len(), all.len());
}

/// The cells of a list that goes into 200 bytes at 20.
fn met(words: &[u32]) -> Vec<String> {
    let write = Write { header: HEADER, words: words.to_vec(), buffer: vec![7; 200], at: 20 };
    cells_met(&write).into_iter().collect()
}

#[test]
fn a_cell_names_what_happened() {
    let (tm, st) = (0x544d, 0x5354);
    let cases: [(&[u32], &str); 14] = [
        (&[], "write / ok / HD, no records"),
        (&[], "write / ok / La is the highest"),
        (&[tm, 0, 3, 0, 0, 0, 1], "write / ok / words behind a term"),
        (&[tm, 0, 3, 0, 0, 0, 1], "TM 0 / written / L at its end"),
        (&[tm, 0, 4, 0, 0, 0, 0], "TM 0 / refused 6 / L the first"),
        (&[tm, 0, 65_538, 0, 0, 0, 0], "TM 0 / refused 6 / L, its low bits in range"),
        (&[tm, 2, 96, 65_536, 0, 0, 0], "TM 2 / refused 5 before 6"),
        (&[tm, 263, 0, 0, 0, 0, 0], "TM other / refused 4 / far"),
        (&[tm, 262, 0, 0, 0, 0, 0], "TM other / refused 4 / its low byte a kind"),
        (&[st, 7, 256, 0, 0, 0, 0], "step 7 / refused 5 / run, its low bits 0"),
        (&[st, 1, 0, 1, 1, 0, 0], "step 1 / refused 6 / a equals b"),
        (&[st, 4, 256, 0, 0, 0, 0], "step 4 / refused 6 / run the first"),
        (&[st | 1 << 16, 7, 0, 0, 0, 0, 0], "record / refused 3 / a wide mark"),
        (&[st, 7, 0], "record / refused 3 / cut short to 3 words"),
    ];
    for (words, cell) in cases {
        assert!(met(words).contains(&cell.to_string()), "{words:?}: {:?}", met(words));
    }
    let order = met(&[tm, 0, 4, 0, 0, 0, 0, tm, 0, 4, 1, 0, 0, 0, 9]);
    for later in [3, 5] {
        assert!(order.contains(&format!("write / refused 6, a later record {later}")));
    }
}

#[test]
fn a_write_is_told_in_words() {
    let words = vec![0x544d, 5, 1, 2, 0, 0, 9, 0x5354, 11, 0, 0, 0, 0, 0, 0x4844, 1];
    let write = Write { header: HEADER, words, buffer: vec![7; 20], at: 3 };
    let told = "HD 4 0x2 100 4294967295
TM 5 1 2 0 0 9
ST 11 0 0 0 0 0
0x4844 1
into 20 bytes at 3
refused 4
";
    assert_eq!(write.to_string(), told);
}
