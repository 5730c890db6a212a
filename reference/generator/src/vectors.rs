//! A small choice of files that together meet every cell.

use std::collections::{HashMap, HashSet};

use crate::cells::main_cells;
use crate::coverage::cells_met;
use crate::edges::{edge_cells, long_cells};

/// Longer files are left out; a full term table needs about 3,600 bytes.
const LONGEST: usize = 6_000;
/// Files looked at for each file wanted.
const CANDIDATES_PER_VECTOR: u64 = 60;

pub struct Vector {
    pub name: String,
    pub file: Vec<u8>,
}

/// A file, the wanted cells it meets, and the cell it was chosen for.
struct Candidate {
    file: Vec<u8>,
    cells: HashSet<String>,
    chosen_for: Option<String>,
}

/// The cells that the vectors must meet: all but those of very long files.
pub fn wanted_cells() -> Vec<String> {
    let mut cells = main_cells();
    cells.extend(edge_cells());
    let long = long_cells();
    cells.retain(|cell| !long.contains(cell));
    cells
}

/// Chooses `count` files: first so many that each cell is met, then short ones
/// so that each cell is met twice, and so on. Also gives the cells left out.
pub fn choose(seed: u64, count: usize) -> (Vec<Vector>, Vec<String>) {
    let wanted = wanted_cells();
    let mut candidates = candidates(seed, count as u64 * CANDIDATES_PER_VECTOR, &wanted);
    let mut times = 1;
    while chosen(&candidates) < count && times <= count {
        meet_each(&mut candidates, &wanted, times, count);
        times += 1;
    }
    candidates.retain(|candidate| candidate.chosen_for.is_some());
    let met: HashSet<&String> = candidates.iter().flat_map(|candidate| &candidate.cells).collect();
    let left_out = wanted.iter().filter(|cell| !met.contains(cell)).cloned().collect();
    let name = |(number, candidate): (usize, Candidate)| Vector {
        name: format!("{:03}-{}", number + 1, file_name(&candidate.chosen_for.unwrap_or_default())),
        file: candidate.file,
    };
    (candidates.into_iter().enumerate().map(name).collect(), left_out)
}

/// The first files of the seed that are short enough, by rising length.
fn candidates(seed: u64, count: u64, wanted: &[String]) -> Vec<Candidate> {
    let wanted: HashSet<&String> = wanted.iter().collect();
    let mut candidates = Vec::new();
    for number in 0..count {
        let file = crate::walk_file(seed, number);
        if file.len() <= LONGEST {
            let cells = cells_met(&file).into_iter().filter(|cell| wanted.contains(cell)).collect();
            candidates.push(Candidate { file, cells, chosen_for: None });
        }
    }
    candidates.sort_by(|x, y| (x.file.len(), &x.file).cmp(&(y.file.len(), &y.file)));
    candidates.dedup_by(|x, y| x.file == y.file);
    candidates
}

fn chosen(candidates: &[Candidate]) -> usize {
    candidates.iter().filter(|candidate| candidate.chosen_for.is_some()).count()
}

/// Chooses files until each cell is met so many times or no file is left for
/// it. Rare cells come first: their files meet many of the others.
fn meet_each(candidates: &mut [Candidate], wanted: &[String], times: usize, count: usize) {
    let mut found: HashMap<&String, Vec<usize>> = HashMap::new();
    for (at, candidate) in candidates.iter().enumerate() {
        for cell in wanted.iter().filter(|cell| candidate.cells.contains(*cell)) {
            found.entry(cell).or_default().push(at);
        }
    }
    let mut rare_first: Vec<(&String, Vec<usize>)> = found.into_iter().collect();
    rare_first.sort_by(|x, y| (x.1.len(), x.0).cmp(&(y.1.len(), y.0)));
    for (cell, files) in rare_first {
        while chosen(candidates) < count {
            let is_chosen = |at: &&usize| candidates[**at].chosen_for.is_some();
            if files.iter().filter(is_chosen).count() >= times {
                break;
            }
            let Some(next) = files.iter().find(|at| !is_chosen(at)) else { break };
            candidates[*next].chosen_for = Some(cell.clone());
        }
    }
}

/// "step 4 / refused 15" as "step-4-refused-15".
fn file_name(cell: &str) -> String {
    let words = cell.split(|c: char| !c.is_ascii_alphanumeric()).filter(|word| !word.is_empty());
    words.collect::<Vec<_>>().join("-").to_lowercase()
}
