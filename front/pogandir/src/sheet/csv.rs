//! The rows as comma-separated values (RFC 4180): a line of column names, then a
//! line a row, each ended by CR and LF.
//!
//! Every text is in quotes. A text that a spreadsheet would run as a formula gets an
//! apostrophe before it, which spreadsheets read as "this is text". Names come from
//! users, so any cell may begin with one; answers never do. A file that is not all
//! ASCII begins with a byte order mark, without which spreadsheets misread it.

use super::cells::{cells, Cell};
use super::rows::Row;

const BYTE_ORDER_MARK: char = '\u{feff}';

pub fn file(rows: &[Row]) -> String {
    let mut lines = Vec::new();
    if let Some(first) = rows.first() {
        lines.push(line(cells(first).iter().map(|(column, _)| quoted(column))));
    }
    for row in rows {
        lines.push(line(cells(row).iter().map(|(_, cell)| shown(cell))));
    }
    let text = lines.concat();
    match text.is_ascii() {
        true => text,
        false => format!("{BYTE_ORDER_MARK}{text}"),
    }
}

fn line(cells: impl Iterator<Item = String>) -> String {
    format!("{}\r\n", cells.collect::<Vec<_>>().join(","))
}

fn shown(cell: &Cell) -> String {
    match cell {
        Cell::Number(number) => number.to_string(),
        Cell::Text(text) => quoted(text),
        Cell::List(items) => quoted(&items.join("; ")),
        Cell::Flag(flag) => quoted(if *flag { "yes" } else { "no" }),
        Cell::Empty => String::new(),
    }
}

fn quoted(text: &str) -> String {
    let runs = text.starts_with(['=', '+', '-', '@', '\t', '\r', '\n']);
    let guard = if runs { "'" } else { "" };
    format!("\"{guard}{}\"", text.replace('"', "\"\""))
}
