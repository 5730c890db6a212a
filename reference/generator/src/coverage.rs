//! Which cells a file meets, and the table over many files.

use std::collections::BTreeMap;

use reference::file::{read_header, read_record};

use crate::cells::main_cells;
use crate::edges::edge_cells;
use crate::header_cells;
use crate::observer::Observer;

/// How often each cell was met. Cells outside the expected ones are kept, so
/// that one met against expectation shows.
#[derive(Default)]
pub struct Tally {
    /// Files, or writes.
    pub inputs: u64,
    pub counts: BTreeMap<String, u64>,
}

impl Tally {
    pub fn add(&mut self, file: &[u8]) {
        self.meet(cells_met(file));
    }

    /// One more input that meets these cells.
    pub fn meet(&mut self, cells: impl IntoIterator<Item = String>) {
        self.inputs += 1;
        for cell in cells {
            *self.counts.entry(cell).or_insert(0) += 1;
        }
    }

    pub fn count(&self, cell: &str) -> u64 {
        self.counts.get(cell).copied().unwrap_or(0)
    }

    /// A line for each of the cells, and a complaint for each that was not met.
    pub fn table(&self, cells: &[String]) -> (String, Vec<String>) {
        let line = |cell: &String| format!("{cell}: {}\n", self.count(cell));
        let unmet = cells.iter().filter(|cell| self.count(cell) == 0);
        let complaints = unmet.map(|cell| format!("never met: {cell}")).collect();
        (cells.iter().map(line).collect(), complaints)
    }

    /// The table's lines, and the complaints about it.
    pub fn report(&self) -> (String, Vec<String>) {
        let main = main_cells();
        let (lines, mut complaints) = self.table(&[main.clone(), edge_cells()].concat());
        // A cell of a step or kind and an answer that the paper rules out.
        for cell in self.counts.keys() {
            if cell.matches(" / ").count() == 1
                && !cell.contains(" before ")
                && !main.contains(cell)
            {
                complaints.push(format!("met, though document 01 rules it out: {cell}"));
            }
        }
        (format!("{} files\n{lines}", self.inputs), complaints)
    }
}

/// The cells that one file meets, once for each time it meets them.
///
/// Panics if the answer to a record is not the first refusal that applies: the
/// second reading in `conditions` and the reference would then disagree.
pub fn cells_met(file: &[u8]) -> Vec<String> {
    let (header, mut rest) = match read_header(file) {
        Ok(read) => read,
        Err(refusal) => return header_cells::refused(file, refusal),
    };
    let mut observer = Observer::new(header.settings());
    observer.cells = header_cells::accepted(file, &header, rest);
    while let Some(read) = read_record(rest) {
        match read {
            Ok((record, after)) => {
                observer.take(&record);
                rest = after;
            }
            Err(_) => {
                observer.broken(rest);
                break;
            }
        }
    }
    observer.cells
}
