//! The cells of the table of writes: what changes 1, 2 and 6 of document 02 make
//! possible.

use reference::marks::FORMATS;

use super::faults::{step_fields, term_fields, Field};
use crate::header_cells::{accepted_hows, refused_hows};

pub fn all() -> Vec<String> {
    let mut cells: Vec<String> = WHOLE.map(String::from).into();
    cells.extend(mark_cells());
    cells.extend(order_cells());
    cells.extend((1..=6).map(|words| format!("record / refused 3 / cut short to {words} words")));
    for kind in 0..=6 {
        record_cells(&mut cells, &format!("TM {kind}"), &term_fields(4, &[0, kind, 0, 0]));
    }
    for step in 1..=10 {
        let fields = step_fields(4, &[0, step, 0, 0, 0, 0, 0]);
        record_cells(&mut cells, &format!("step {step}"), &fields);
    }
    for step in [1, 2] {
        for how in ["a is 0", "b is 0", "a equals b"] {
            cells.push(format!("step {step} / refused 6 / {how}"));
        }
    }
    cells
}

/// What depends on the header's mark. A header to be written has 32 flags.
fn mark_cells() -> Vec<String> {
    let mut cells = Vec::new();
    for format in &FORMATS {
        let letters = format.letters();
        let written = ["no records", "65,536 bytes", "every flag set"].map(String::from);
        for how in accepted_hows(format).into_iter().chain(written) {
            cells.push(format!("write / ok / {letters}, {how}"));
        }
        cells.push(format!("write / refused 1 / {letters}, 65,537 bytes"));
        cells.extend(
            refused_hows(format, 32).iter().map(|how| format!("write / refused 2 / {how}")),
        );
        cells.push(format!("write / refused 21 / {letters}, one byte short"));
    }
    cells
}

/// Written, each field at its end; refused, for each field in each way.
fn record_cells(cells: &mut Vec<String>, subject: &str, fields: &[Field]) {
    cells.push(format!("{subject} / written"));
    for field in fields.iter().filter(|field| field.is_used()) {
        cells.push(format!("{subject} / written / {} at its end", field.name));
    }
    let ways: Vec<(u8, String)> = fields.iter().flat_map(ways).collect();
    for number in [5, 6] {
        if ways.iter().any(|(refusal, _)| *refusal == number) {
            cells.push(format!("{subject} / refused {number}"));
        }
    }
    cells.extend(ways.iter().map(|(number, way)| format!("{subject} / refused {number} / {way}")));
    if [5, 6].iter().all(|number| ways.iter().any(|(refusal, _)| refusal == number)) {
        cells.push(format!("{subject} / refused 5 before 6"));
    }
}

/// In which ways a field can be refused. Nothing is wider than t.
fn ways(field: &Field) -> Vec<(u8, String)> {
    let Field { name, bits, .. } = field;
    let mut ways = Vec::new();
    if !field.is_used() {
        ways.push((5, name.to_string()));
        if *bits < 32 {
            ways.push((5, format!("{name}, its low bits 0")));
        }
    } else if *bits < 32 {
        ways.push((6, format!("{name} the first")));
        ways.push((6, format!("{name}, its low bits in range")));
        if !field.takes_all() {
            ways.push((6, format!("{name} far")));
        }
    }
    ways
}

/// Two refusals that apply, and the first is given; and a later record whose
/// number is lower.
fn order_cells() -> Vec<String> {
    let mut cells = Vec::new();
    for first in 1..=6 {
        let later: &[u8] = match first {
            1 => &[2, 3, 4, 5, 6, 21],
            2 => &[3, 4, 5, 6, 21],
            _ => &[21],
        };
        cells.extend(later.iter().map(|later| format!("write / refused {first} before {later}")));
        for later in 3..first {
            cells.push(format!("write / refused {first}, a later record {later}"));
        }
    }
    cells
}

const WHOLE: [&str; 39] = [
    "write / ok",
    "write / ok / Ls is the highest",
    "write / ok / La is the highest",
    "write / ok / words behind a term",
    "write / ok / at 0",
    "write / ok / at an offset",
    "write / ok / exact room",
    "write / ok / one byte more",
    "write / ok / more room",
    "write / refused 1",
    "write / refused 1 / far over",
    "write / refused 1 / another mark",
    "write / refused 1 / another mark, a bad header too",
    "write / refused 2",
    "write / refused 3",
    "write / refused 3 / 65,536 bytes without the record",
    "write / refused 4",
    "write / refused 5",
    "write / refused 6",
    "write / refused 21",
    "write / refused 21 / an empty buffer",
    "write / refused 21 / at the end",
    "write / refused 21 / one past the end",
    "write / refused 21 / far past the end",
    "write / refused 21 / at the highest offset",
    "write / refused 21 / a sum of the highest number",
    "write / refused 21 / a sum that wraps",
    "record / refused 3",
    "record / refused 3 / another mark",
    "record / refused 3 / a wide mark",
    "TM other / refused 4",
    "TM other / refused 4 / 7",
    "TM other / refused 4 / far",
    "TM other / refused 4 / its low byte a kind",
    "step other / refused 4",
    "step other / refused 4 / 0",
    "step other / refused 4 / 11",
    "step other / refused 4 / far",
    "step other / refused 4 / its low byte a step",
];
