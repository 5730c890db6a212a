//! A walk as a sheet: a row a record, with what it did to the tables. The page, the
//! CSV file and the JSON text are made of one list of rows, so they cannot differ.

mod cells;
mod chart;
mod csv;
mod events;
mod file;
mod html;
mod listener;
pub mod rows;
mod summary;
mod svg;
mod table;
mod terms;
mod words;

use crate::faults::Fault;
use crate::listed::Listed;

pub use chart::FOLDED_FROM;

/// One page that needs nothing else: no network, no other file.
pub fn html(listed: &Listed) -> String {
    html::page(listed, &rows::rows(listed))
}

/// The rows as a file for spreadsheets.
pub fn csv(listed: &Listed) -> String {
    csv::file(&rows::rows(listed))
}

/// The rows as JSON, with what is wrong with the text that they are from.
pub fn json(listed: &Listed, faults: &[Fault]) -> String {
    cells::json(&listed.name, &rows::rows(listed), faults)
}
