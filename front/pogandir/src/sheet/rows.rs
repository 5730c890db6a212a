//! The rows of a sheet: what each record asked, what the engine answered, and what
//! changed. Everything that is shown of a record stands here.

use engine::{is_marked, Answer, Call, Entry};

use super::listener::{listeners, Listener};
use super::{file, words};
use crate::listed::Listed;
use crate::notation::{pieces, pieces_up_to, Piece};
use crate::vocabulary::{Refusal, Step};
use crate::walk::{Acceptance, Taken, Walk};

/// A term in notation. Its number is none where the term is not there.
#[derive(Clone, Debug, PartialEq, Eq)]
pub struct Noted {
    pub term: Option<u16>,
    pub pieces: Vec<Piece>,
}

/// A message that the record sent; `fresh` if it was not on the wire before.
#[derive(Clone, Debug, PartialEq, Eq)]
pub struct SentOut {
    pub name: &'static str,
    pub run: u8,
    pub message: Noted,
    pub fresh: bool,
}

/// What the record did to an entry of the replay cache.
#[derive(Clone, Copy, Debug, PartialEq, Eq)]
pub enum Change {
    Kept,
    Remembered,
    /// The clock has come to the end of its life.
    Over,
    Forgotten,
}

#[derive(Clone, Debug, PartialEq, Eq)]
pub struct EntryRow {
    pub entry: Entry,
    pub text: String,
    pub change: Change,
}

#[derive(Clone, Debug, PartialEq, Eq)]
pub struct RunRow {
    pub run: u8,
    pub name: String,
    pub text: String,
}

#[derive(Clone, Copy, Debug, PartialEq, Eq)]
pub enum Kind {
    Header,
    Term,
    Step(u8),
    /// Reading ended here.
    File,
}

#[derive(Clone, Debug)]
pub struct Row {
    pub record: usize,
    pub kind: Kind,
    /// The mark and the answer, as the listing has them.
    pub mark: String,
    pub answer: String,
    pub refused: Option<u8>,
    /// The clock afterwards; none where there is no realm.
    pub clock: Option<u32>,
    pub call: String,
    /// The message taken, or the term added.
    pub message: Option<Noted>,
    pub sent: Vec<SentOut>,
    pub meaning: String,
    pub reason: String,
    pub acceptance: Option<Acceptance>,
    pub listener: Listener,
    /// The entries of the cache, and those that were forgotten.
    pub entries: Vec<EntryRow>,
    /// The runs that changed, and how many did not.
    pub runs: Vec<RunRow>,
    pub unchanged_runs: usize,
}

/// Parts of a term that is shown in one thin line.
const THIN: usize = 20;

impl Noted {
    pub fn of(walk: &Walk, term: u16) -> Noted {
        Noted { term: Some(term), pieces: pieces(&walk.tables, &walk.names, term) }
    }

    pub fn thin(walk: &Walk, term: u16) -> Noted {
        Noted { term: Some(term), pieces: pieces_up_to(THIN, &walk.tables, &walk.names, term) }
    }

    pub fn text(&self) -> String {
        self.pieces.iter().map(Piece::text).collect()
    }
}

impl Row {
    pub fn forgotten(&self) -> usize {
        self.entries.iter().filter(|entry| entry.change == Change::Forgotten).count()
    }
}

/// A row for each line of the listing but the last.
pub fn rows(listed: &Listed) -> Vec<Row> {
    let lines = listed.lines.iter().filter(|line| !line.starts_with("end "));
    let mut rows: Vec<Row> = lines.map(|line| bare(line)).collect();
    let calls = listed.walk.as_ref().map_or(0, |walk| walk.taken.len());
    for row in rows.iter_mut().filter(|row| row.record == 0 || row.record > calls) {
        about_file(row, listed);
    }
    let Some(walk) = &listed.walk else { return rows };
    let mut wire = 0;
    for ((row, listener), place) in rows[1..].iter_mut().zip(listeners(walk)).zip(0..) {
        wire = listener.wire;
        row.listener = listener;
        about_call(row, walk, place);
    }
    if let Some(row) = rows.get_mut(calls + 1) {
        row.listener.wire = wire;
    }
    rows
}

/// What the line of the listing says by itself.
fn bare(line: &str) -> Row {
    let mut words = line.splitn(3, ' ');
    let mut word = || words.next().expect("a line has a number, a mark and an answer");
    let (number, mark, answer) = (word(), word(), word());
    let refused = answer.strip_prefix("refused ").and_then(|number| number.parse().ok());
    let record = number.parse().expect("a line begins with its number");
    Row {
        record,
        kind: if record == 0 { Kind::Header } else { Kind::File },
        mark: mark.to_string(),
        answer: answer.to_string(),
        refused,
        clock: None,
        call: String::new(),
        message: None,
        sent: Vec::new(),
        meaning: refused.map(Refusal::told).unwrap_or_default(),
        reason: String::new(),
        acceptance: None,
        listener: Listener::default(),
        entries: Vec::new(),
        runs: Vec::new(),
        unchanged_runs: 0,
    }
}

/// The header, or the place where reading ended: the tables are as they were.
fn about_file(row: &mut Row, listed: &Listed) {
    row.call = file::call(listed, row.record);
    if let Some(refusal) = row.refused {
        row.reason = file::reason(listed, row.record, refusal);
    }
    let Some(walk) = &listed.walk else { return };
    row.clock = Some(0);
    if let (Kind::File, Some(last)) = (row.kind, walk.taken.last()) {
        row.clock = Some(last.clock);
        row.entries = entries(walk, last, Some(last));
        row.unchanged_runs = last.runs.len();
    }
}

fn about_call(row: &mut Row, walk: &Walk, place: usize) {
    let taken = &walk.taken[place];
    let before = place.checked_sub(1).map(|place| &walk.taken[place]);
    row.kind = match taken.call {
        Call::Term { .. } => Kind::Term,
        Call::Step { step, .. } => Kind::Step(step),
    };
    row.clock = Some(taken.clock);
    row.call = words::call(walk, taken);
    row.message = message(walk, taken);
    row.sent = sent(walk, taken, before);
    if row.refused.is_none() {
        row.meaning = words::meaning(walk, taken.answer);
    }
    row.reason = taken.reason.clone();
    row.acceptance = taken.acceptance.clone();
    row.entries = entries(walk, taken, before);
    row.runs = runs(walk, taken, before);
    row.unchanged_runs = taken.runs.len() - row.runs.len();
}

/// The message that a step takes, or the term that was added.
fn message(walk: &Walk, taken: &Taken) -> Option<Noted> {
    let term = match (taken.call, taken.answer) {
        (Call::Term { .. }, Answer::New(number) | Answer::Old(number)) => {
            return Some(Noted::thin(walk, number))
        }
        (Call::Step { step, m, .. }, _) if Step::of(step.into())?.uses.contains(&"m") => m,
        _ => return None,
    };
    if usize::from(term) < taken.terms {
        return Some(Noted::of(walk, term));
    }
    let absent = format!("term {term}, which is not there");
    Some(Noted { term: None, pieces: vec![Piece::Text(absent)] })
}

fn sent(walk: &Walk, taken: &Taken, before: Option<&Taken>) -> Vec<SentOut> {
    let was_there = |term| before.is_some_and(|before| is_marked(&before.wire, term));
    let shown = |sent: &crate::walk::Sent| SentOut {
        name: sent.name,
        run: sent.run,
        message: Noted::of(walk, sent.term),
        fresh: !was_there(sent.term),
    };
    taken.sent.iter().map(shown).collect()
}

fn entries(walk: &Walk, taken: &Taken, before: Option<&Taken>) -> Vec<EntryRow> {
    let empty = Vec::new();
    let old = before.map_or(&empty, |before| &before.entries);
    let clock_before = before.map_or(0, |before| before.clock);
    let ends = |entry: &Entry| u64::from(entry.ta) + u64::from(walk.header.authenticator_life);
    let change = |entry: &Entry| {
        let crossed = u64::from(clock_before) < ends(entry) && ends(entry) <= taken.clock.into();
        match (old.contains(entry), crossed) {
            (false, _) => Change::Remembered,
            (true, true) => Change::Over,
            (true, false) => Change::Kept,
        }
    };
    let row = |entry: &Entry, change| EntryRow {
        entry: *entry,
        text: words::entry(walk, entry, ends(entry), taken.clock),
        change,
    };
    let gone = old.iter().filter(|entry| !taken.entries.contains(entry));
    let gone = gone.map(|entry| row(entry, Change::Forgotten));
    taken.entries.iter().map(|entry| row(entry, change(entry))).chain(gone).collect()
}

fn runs(walk: &Walk, taken: &Taken, before: Option<&Taken>) -> Vec<RunRow> {
    let old = |number: u8| before.and_then(|before| before.runs.get(usize::from(number)));
    let changed = (0..).zip(&taken.runs).filter(|(number, run)| old(*number) != Some(*run));
    let row = |(number, run)| RunRow {
        run: number,
        name: walk.names.run(number),
        text: words::run(walk, run),
    };
    changed.map(row).collect()
}
