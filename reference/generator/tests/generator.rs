//! The generator: the same files for the same seed, every cell met, and files
//! that the reference reads as they were meant.

use std::collections::HashSet;

use generator::cells::{main_cells, most_added, refusals_of_kind, refusals_of_step};
use generator::coverage::{cells_met, Tally};
use generator::edges::edge_cells;
use generator::headers::{any_header, spoilt_header, unknown_mark};
use generator::known::known_parts;
use generator::random::Random;
use generator::{damaged_file, vectors, walk_file, write};
use reference::marks::{format_of, mark, FORMATS};
use reference::rules::Rules;

const SEED: u64 = 1;

#[test]
fn a_file_depends_on_seed_and_number_alone() {
    let first: Vec<Vec<u8>> = (0..200).map(|number| walk_file(SEED, number)).collect();
    let again: Vec<Vec<u8>> = (0..200).rev().map(|number| walk_file(SEED, number)).collect();
    assert!(first.iter().eq(again.iter().rev()));
    let other: Vec<Vec<u8>> = (0..200).map(|number| walk_file(SEED + 1, number)).collect();
    assert_ne!(first, other);
    let distinct: HashSet<&Vec<u8>> = first.iter().chain(&other).collect();
    assert!(distinct.len() > 380);
}

/// Most damaged files are refused somewhere for their bytes, in each way that
/// there is; some damages only change a field.
#[test]
fn damaged_files_are_damaged() {
    let mut tally = Tally::default();
    let files: Vec<Vec<u8>> = (0..1_000).map(|number| damaged_file(SEED, number)).collect();
    assert_eq!(damaged_file(SEED, 17), files[17]);
    for file in &files {
        tally.add(file);
    }
    let refused: Vec<u64> = (1..=3).map(|n| tally.count(&format!("file / refused {n}"))).collect();
    assert!(refused.iter().all(|count| *count >= 50), "{refused:?}");
    assert!(refused.iter().sum::<u64>() >= 400, "{refused:?}");
}

/// Good headers pass by their mark, most spoilt ones are refused, and a mark that
/// is unknown is in no table.
#[test]
fn headers_are_of_every_mark() {
    let mut random = Random::new(SEED, 0);
    for format in &FORMATS {
        let headers: Vec<_> = (0..4_000).map(|_| any_header(&mut random)).collect();
        let own: Vec<_> = headers.iter().filter(|header| header.mark == format.mark).collect();
        assert!(own.len() > 800 && own.iter().all(|header| header.check().is_ok()));
        assert!(own.iter().any(|header| header.principals == format.most_principals));
    }
    let spoilt = (0..4_000).filter(|_| spoilt_header(&mut random).check().is_err()).count();
    assert!(spoilt > 3_000, "{spoilt}");
    assert!((0..1_000).all(|_| format_of(unknown_mark(&mut random)).is_none()));
}

/// Files, damaged files and writes have headers of every mark.
#[test]
fn every_mark_is_compared() {
    let first = |file: &Vec<u8>| file.first_chunk().map(mark);
    let files: Vec<_> = (0..2_000).map(|number| first(&walk_file(SEED, number))).collect();
    let damaged: Vec<_> = (0..2_000).map(|number| first(&damaged_file(SEED, number))).collect();
    let writes: Vec<_> = (0..2_000).map(|number| Some(write(SEED, number).header.mark)).collect();
    for (inputs, least) in [(files, 300), (damaged, 200), (writes, 400)] {
        for format in &FORMATS {
            let own = inputs.iter().filter(|mark| **mark == Some(format.mark)).count();
            assert!(own > least, "{}: {own}", format.letters());
        }
    }
}

/// Sums in the generator do not pass their types' ends, whatever the seed.
#[test]
fn other_seeds_make_files() {
    for seed in 2..12 {
        for number in 0..300 {
            walk_file(seed, number);
        }
    }
}

#[test]
fn every_main_cell_is_met_soon_and_none_that_is_ruled_out() {
    let mut tally = Tally::default();
    for number in 0..1_500 {
        tally.add(&walk_file(SEED, number));
    }
    let main = main_cells();
    for cell in &main {
        assert!(tally.count(cell) > 0, "never met: {cell}");
    }
    let (_, complaints) = tally.report();
    assert!(
        complaints.iter().all(|complaint| complaint.starts_with("never met")),
        "{complaints:?}"
    );
}

/// A step adds each number of terms that it can add, and none adds more.
#[test]
fn known_parts_are_any_number() {
    let mut tally = Tally::default();
    for number in 0..400 {
        tally.add(&known_parts(&mut Random::new(SEED, number)).bytes);
    }
    let apart = [1, 3, 4, 5].map(|step| (step, Rules::Apart, ""));
    let carried = [(Rules::Beside, "H5, "), (Rules::Within, "H4, ")];
    let carried = carried.into_iter().flat_map(|(rules, set)| [(3, rules, set), (4, rules, set)]);
    for (step, rules, set) in apart.into_iter().chain(carried) {
        for added in 0..=most_added(step, rules) {
            let cell = format!("step {step} / ok / {set}adds {added}");
            assert!(tally.count(&cell) > 0, "never met: {cell}");
        }
    }
    let adds = |cell: &&String| cell.contains(" / ok / ") && cell.contains("adds ");
    assert_eq!(tally.counts.keys().filter(adds).count(), 6 + 12 + 4 + 2 + 2 * (13 + 5));
}

#[test]
fn cells_are_listed_once() {
    let all: Vec<String> = main_cells().into_iter().chain(edge_cells()).collect();
    let distinct: HashSet<&String> = all.iter().collect();
    assert_eq!(distinct.len(), all.len());
}

#[test]
fn refusals_of_steps_are_those_of_the_column() {
    // The column "steps" of the state table, turned round.
    let column: [(u8, &[u8]); 11] = [
        (11, &[4, 5, 6, 9]),
        (12, &[7]),
        (13, &[1, 2, 3]),
        (14, &[3, 4, 5, 6]),
        (15, &[3, 4, 5, 6, 10]),
        (16, &[4, 5, 6]),
        (17, &[5]),
        (18, &[5]),
        (19, &[5]),
        (20, &[1, 3, 4, 5]),
        (22, &[5]),
    ];
    for (refusal, steps) in column {
        for step in 1..=10 {
            assert_eq!(refusals_of_step(step).contains(&refusal), steps.contains(&step));
        }
    }
    assert!((0..=6).all(|kind| refusals_of_kind(kind).contains(&20)));
}

#[test]
fn a_cell_names_what_happened() {
    let header = b"HD\x03\0\0\0\0\0\x64\0\0\0\x0a".to_vec();
    let met = |records: &[u8]| cells_met(&[header.clone(), records.to_vec()].concat());
    let has =
        |cells: Vec<String>, cell: &str| assert!(cells.contains(&cell.to_string()), "{cells:?}");
    has(met(b""), "HD / ok / nothing follows");
    has(met(b"TM\x00\0\x03\0\x01"), "TM 0 / refused 5 before 6");
    has(met(b"TM\x00\0\x03\0\0"), "TM 0 / refused 6 / L is n");
    has(met(b"TM\x09\0\x03\0\0"), "TM other / refused 4");
    has(met(b"ST\x01\0\x01\x01\0\0\0\0\0\0"), "step 1 / refused 6 / a equals b");
    has(met(b"ST\x07\0\0\0\0\0\0\0\0\0"), "step 7 / ok / the same clock");
    let opened = b"ST\x01\0\x01\x02\0\0\0\0\0\0TM\x02\0\0\0\0";
    has(met(opened), "step 1 / ok / adds 5");
    has(met(opened), "TM 2 / old / added by a step");
    has(met(&[b"TM\x02\0\0\0\0", &opened[..]].concat()), "step 1 / ok / adds 4");
    has(met(b"ST\x0b\0\0\0\0\0\0\0\0\0"), "step other / refused 4");
    has(met(b"ST\x0a\0\0\0\0\0\0\0\0"), "file / refused 3 / ST cut short");
    has(cells_met(b""), "file / refused 1 / empty");
    has(cells_met(b"HD\x03\0\x01\0\0\0\x01\0\0\0\x01"), "file / refused 2 / HD, flag on 0");
    has(cells_met(b"HW\x1f\x80\0\0\0\0\0\0\x01\0\0\0\x01"), "file / refused 2 / HW, flag 31 at n");
    has(cells_met(b"HW\x20\x80\0\0\0\0\0\0\x01\0\0\0\x01"), "HW / ok / flag 31");
    has(cells_met(b"HW\x21\0\0\0\0\0\0\0\x01\0\0\0\x01"), "file / refused 2 / HW, n is 33");
    has(
        cells_met(b"HW\x03\0\0\0\0\0\0\0\x01\0\0"),
        "file / refused 1 / HW, cut short by two bytes",
    );
    has(cells_met(b"HX\x03\0\0\0\0\0\0\0\x01\0\0"), "file / refused 1 / another mark");
    has(met(b"HW\x03"), "file / refused 3 / second HW");
}

#[test]
fn vectors_stay_small_and_add_something() {
    let (chosen, _) = vectors::choose(SEED, 40);
    assert_eq!(chosen.len(), 40);
    let names: HashSet<&String> = chosen.iter().map(|vector| &vector.name).collect();
    assert_eq!(names.len(), 40);
    assert!(chosen.iter().all(|vector| vector.file.len() <= 6_000));
}
