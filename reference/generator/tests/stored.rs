//! The walks stored for the program `vectors`: the list names every file, each
//! listing is the reference's, and together they meet every cell.

use std::collections::HashSet;
use std::fs;
use std::path::PathBuf;

use generator::cells::main_cells;
use generator::coverage::cells_met;
use generator::edges::edge_cells;

fn directory() -> PathBuf {
    PathBuf::from(env!("CARGO_MANIFEST_DIR")).join("../../crates/vectors/data")
}

/// The names of each walk file and its listing.
fn pairs() -> Vec<(String, String)> {
    let list = fs::read_to_string(directory().join("files")).unwrap();
    let mut lines = list.lines().map(String::from);
    let count: usize = lines.next().unwrap().parse().unwrap();
    let names: Vec<String> = lines.collect();
    assert_eq!(names.len(), 2 * count);
    names.chunks(2).map(|pair| (pair[0].clone(), pair[1].clone())).collect()
}

#[test]
fn the_list_names_every_file() {
    let names: HashSet<String> =
        pairs().into_iter().flat_map(|(walk, listing)| [walk, listing]).collect();
    assert_eq!(names.len(), 2 * pairs().len());
    let files = fs::read_dir(directory()).unwrap().map(|entry| entry.unwrap().file_name());
    for file in files.filter(|file| file != "files") {
        assert!(names.contains(file.to_str().unwrap()), "not in the list: {file:?}");
    }
}

#[test]
fn every_listing_is_the_references() {
    for (walk, listing) in pairs() {
        let file = fs::read(directory().join(&walk)).unwrap();
        let stored = fs::read_to_string(directory().join(listing)).unwrap();
        assert_eq!(reference::listing(&file), stored, "{walk}");
    }
}

#[test]
fn every_cell_is_met() {
    let mut met = HashSet::new();
    for (walk, _) in pairs() {
        met.extend(cells_met(&fs::read(directory().join(walk)).unwrap()));
    }
    let cells = main_cells().into_iter().chain(edge_cells());
    let left_out: Vec<String> = cells.filter(|cell| !met.contains(cell)).collect();
    assert!(left_out.is_empty(), "{left_out:?}");
}
