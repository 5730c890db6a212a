//! Which cells a write meets.

use std::collections::BTreeSet;

use reference::file::{read_header, read_records, Header, MAX_FILE_BYTES};
use reference::marks::{format_of, letters, Format, MAX_PRINCIPALS};
use reference::refusal::Refusal;
use reference::writing::{RECORD_WORDS, STEP_MARK, TERM_MARK};

use super::cells;
use super::faults::Reading;
use super::Write;
use crate::coverage::Tally;
use crate::header_cells::{accepted_ways, refused_ways};

/// The table over so many writes, and the complaints about it.
pub fn report(tally: &Tally) -> (String, Vec<String>) {
    let cells = cells::all();
    let (lines, mut complaints) = tally.table(&cells);
    for cell in tally.counts.keys().filter(|cell| !cells.contains(cell)) {
        complaints.push(format!("met, though document 02 rules it out: {cell}"));
    }
    (format!("{} writes\n{lines}", tally.inputs), complaints)
}

/// The cells that one write meets.
///
/// Panics if the reference's answer is not the one that `faults` and the length
/// make, or if its buffer is not what the answer says.
pub fn cells_met(write: &Write) -> BTreeSet<String> {
    let facts = Facts::of(write);
    let (answer, buffer) = write.answer();
    assert_eq!(answer.err(), facts.applies.first().copied(), "{write}");
    let mut cells = BTreeSet::new();
    match answer {
        Ok(count) => {
            check_written(write, &facts, count, &buffer);
            written_cells(write, &facts, &mut cells);
        }
        Err(number) => {
            assert!(buffer == write.buffer, "changed though refused: {write}");
            refused_cells(write, &facts, number, &mut cells);
        }
    }
    cells
}

/// What is so of a write: all refusals that apply, in the order of looking.
struct Facts {
    readings: Vec<Reading>,
    /// The file's length, and the bytes in the buffer from the offset on.
    needed: usize,
    left: Option<usize>,
    applies: Vec<u8>,
}

impl Facts {
    fn of(write: &Write) -> Facts {
        let n = write.header.principals;
        let records = write.words.chunks(RECORD_WORDS);
        let readings: Vec<Reading> = records.clone().map(|words| Reading::of(n, words)).collect();
        let whole = records.filter(|words| words.len() == RECORD_WORDS);
        let format = format_of(write.header.mark);
        let needed = format.map_or(0, Format::header_bytes)
            + whole.map(|words| length(words[0])).sum::<usize>();
        let left = write.buffer.len().checked_sub(write.at);
        let no_header = (format.is_none() || needed > MAX_FILE_BYTES).then_some(1);
        let bad_header = write.header.check() == Err(Refusal::BadHeader);
        let record = readings.iter().find_map(Reading::refusal);
        let room = left.is_none_or(|left| left < needed).then_some(21);
        let header = bad_header.then_some(2);
        let applies = [no_header, header, record, room].into_iter().flatten().collect();
        Facts { readings, needed, left, applies }
    }
}

fn length(mark: u32) -> usize {
    match mark {
        TERM_MARK => 7,
        STEP_MARK => 12,
        _ => 0,
    }
}

/// The file is read back from its place, and all other bytes are as before.
fn check_written(write: &Write, facts: &Facts, count: usize, buffer: &[u8]) {
    assert_eq!(count, facts.needed, "{write}");
    let end = write.at + count;
    assert!(buffer[..write.at] == write.buffer[..write.at], "changed before: {write}");
    assert!(buffer[end..] == write.buffer[end..], "changed behind: {write}");
    let (header, rest) = read_header(&buffer[write.at..end]).expect("the header is read");
    let (records, whole) = read_records(rest);
    assert!(whole && header == write.header, "{write}");
    let read = reference::writing::words(&records);
    for (read, given) in read.chunks(RECORD_WORDS).zip(write.words.chunks(RECORD_WORDS)) {
        let used = if read[0] == TERM_MARK { 4 } else { RECORD_WORDS };
        assert_eq!(read[..used], given[..used], "{write}");
    }
    assert_eq!(read.len(), write.words.len(), "{write}");
}

fn written_cells(write: &Write, facts: &Facts, cells: &mut BTreeSet<String>) {
    let Header { mark, principals: n, flags, ticket_life, authenticator_life } = write.header;
    let left = facts.left.unwrap_or(0);
    let junk = |words: &[u32]| words[0] == TERM_MARK && words[4..] != [0; 3];
    let by_mark = [
        ("no records", write.words.is_empty()),
        ("65,536 bytes", facts.needed == MAX_FILE_BYTES),
        ("every flag set", u64::from(flags) == (1 << n) - 2),
    ];
    let under = format!("write / ok / {}, ", letters(mark));
    cells.extend(accepted_ways(&write.header).iter().map(|how| format!("{under}{how}")));
    meet(cells, &under, &by_mark);
    let hows = [
        ("Ls is the highest", ticket_life == u32::MAX),
        ("La is the highest", authenticator_life == u32::MAX),
        ("words behind a term", write.words.chunks(RECORD_WORDS).any(junk)),
        ("at 0", write.at == 0),
        ("at an offset", write.at > 0),
        ("exact room", left == facts.needed),
        ("one byte more", left == facts.needed + 1),
        ("more room", left > facts.needed + 1),
    ];
    cells.insert("write / ok".into());
    meet(cells, "write / ok / ", &hows);
    for Reading { subject, fields, .. } in &facts.readings {
        cells.insert(format!("{subject} / written"));
        for field in fields.iter().filter(|field| u64::from(field.value) + 1 == field.first) {
            cells.insert(format!("{subject} / written / {} at its end", field.name));
        }
    }
}

fn meet(cells: &mut BTreeSet<String>, start: &str, hows: &[(&str, bool)]) {
    let met = hows.iter().filter(|(_, is)| *is);
    cells.extend(met.map(|(how, _)| format!("{start}{how}")));
}

fn refused_cells(write: &Write, facts: &Facts, number: u8, cells: &mut BTreeSet<String>) {
    let cell = format!("write / refused {number}");
    cells.extend(facts.applies[1..].iter().map(|later| format!("{cell} before {later}")));
    let start = format!("{cell} / ");
    let under = format!("{start}{}, ", letters(write.header.mark));
    let (length, one_over) = (facts.needed, MAX_FILE_BYTES + 1);
    match number {
        1 if format_of(write.header.mark).is_none() => {
            let bad_too = !write.header.settings().fit(MAX_PRINCIPALS);
            let hows = [("another mark", true), ("another mark, a bad header too", bad_too)];
            meet(cells, &start, &hows);
        }
        1 => {
            meet(cells, &under, &[("65,537 bytes", length == one_over)]);
            meet(cells, &start, &[("far over", length > one_over)]);
        }
        2 => cells.extend(refused_ways(&write.header).iter().map(|how| format!("{start}{how}"))),
        21 => {
            meet(cells, &under, &[("one byte short", facts.left == Some(length - 1))]);
            meet(cells, &start, &room_hows(write, facts));
        }
        _ => record_cells(facts, number, cells),
    }
    if number == 3 && facts.needed == MAX_FILE_BYTES {
        cells.insert(format!("{cell} / 65,536 bytes without the record"));
    }
    cells.insert(cell);
}

fn room_hows(write: &Write, facts: &Facts) -> [(&'static str, bool); 7] {
    let (length, at) = (write.buffer.len(), write.at);
    let sum = at.checked_add(facts.needed);
    [
        ("an empty buffer", length == 0),
        ("at the end", at == length),
        ("one past the end", at == length + 1),
        ("far past the end", at > length + 1),
        ("at the highest offset", at == usize::MAX),
        ("a sum of the highest number", sum == Some(usize::MAX)),
        ("a sum that wraps", sum.is_none()),
    ]
}

/// The cells of the record that decides, and of later ones with lower numbers.
fn record_cells(facts: &Facts, number: u8, cells: &mut BTreeSet<String>) {
    let mut refused = facts.readings.iter().filter(|reading| !reading.faults.is_empty());
    let Some(first) = refused.next() else { return };
    let cell = format!("{} / refused {number}", first.subject);
    cells.extend(first.way().map(|way| format!("{cell} / {way}")));
    if first.faults.iter().any(|(later, _)| *later > number) {
        cells.insert(format!("{cell} before 6"));
    }
    cells.insert(cell);
    let lower = refused.filter_map(Reading::refusal).filter(|later| *later < number);
    cells.extend(lower.map(|later| format!("write / refused {number}, a later record {later}")));
}
