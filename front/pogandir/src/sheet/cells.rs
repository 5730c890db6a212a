//! The columns of the CSV file and of the JSON text: one list for both.

use super::rows::{Change, Noted, Row};
use crate::faults::Fault;
use crate::json;
use crate::walk::Acceptance;

pub enum Cell {
    Number(u64),
    Text(String),
    List(Vec<String>),
    Flag(bool),
    Empty,
}

impl Cell {
    fn json(&self) -> String {
        match self {
            Cell::Number(number) => number.to_string(),
            Cell::Text(text) => json::string(text),
            Cell::List(items) => json::array(items.iter().map(|item| json::string(item))),
            Cell::Flag(flag) => flag.to_string(),
            Cell::Empty => "null".to_string(),
        }
    }
}

/// The cells of a row, with the names of their columns.
pub fn cells(row: &Row) -> Vec<(&'static str, Cell)> {
    let text = |text: &str| Cell::Text(text.to_string());
    vec![
        ("record", Cell::Number(row.record as u64)),
        ("clock", row.clock.map_or(Cell::Empty, |clock| Cell::Number(clock.into()))),
        ("mark", text(&row.mark)),
        ("call", text(&row.call)),
        ("message", row.message.as_ref().map_or(Cell::Empty, |noted| Cell::Text(noted.text()))),
        ("sends", sent(row)),
        ("answer", text(&row.answer)),
        ("meaning", text(&row.meaning)),
        ("reason", text(&row.reason)),
        ("acceptance", acceptance(row)),
        ("on the wire", Cell::Number(row.listener.wire.into())),
        ("derivable", row.listener.derives.map_or(Cell::Empty, Cell::Flag)),
        ("listener learns", noted(&row.listener.learns)),
        ("listener opens", noted(&row.listener.opens)),
        ("listener can now make", noted(&row.listener.makes)),
        ("replay cache", entries(row, |change| change != Change::Forgotten)),
        ("forgotten", entries(row, |change| change == Change::Forgotten)),
        ("runs changed", runs(row)),
    ]
}

fn sent(row: &Row) -> Cell {
    let items = row.sent.iter().map(|sent| format!("{} {}", sent.name, sent.message.text()));
    Cell::List(items.collect())
}

fn acceptance(row: &Row) -> Cell {
    match &row.acceptance {
        None => Cell::Empty,
        Some(Acceptance::Matched(run)) => Cell::Text(format!("matches run {run}")),
        Some(Acceptance::NotCovered(why)) => Cell::Text(format!("not covered: {why}")),
    }
}

fn noted(terms: &[Noted]) -> Cell {
    Cell::List(terms.iter().map(Noted::text).collect())
}

fn entries(row: &Row, which: impl Fn(Change) -> bool) -> Cell {
    let entries = row.entries.iter().filter(|entry| which(entry.change));
    Cell::List(entries.map(|entry| entry.text.clone()).collect())
}

fn runs(row: &Row) -> Cell {
    let items = row.runs.iter().map(|run| format!("{}: {}", run.name, run.text));
    Cell::List(items.collect())
}

/// The name of the walk's file and its rows, a row a line.
pub fn json(name: &str, rows: &[Row], faults: &[Fault]) -> String {
    let rows: Vec<String> = rows.iter().map(object).collect();
    json::object([
        ("file", json::string(name)),
        ("rows", format!("[\n{}\n]", rows.join(",\n"))),
        ("faults", json::array(faults.iter().map(Fault::json))),
    ])
}

fn object(row: &Row) -> String {
    let cells = cells(row);
    let names: Vec<String> = cells.iter().map(|(column, _)| column.replace(' ', "_")).collect();
    let values = cells.iter().map(|(_, cell)| cell.json());
    json::object(names.iter().map(String::as_str).zip(values))
}
