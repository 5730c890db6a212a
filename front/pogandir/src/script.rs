//! A text read line by line: each line is a record in numbers (`plain`) or a
//! sentence (`sentence`), with what is expected of it. The engine is asked as the
//! lines are read, so every number that a name stands for is its answer.

use std::cell::Cell;
use std::collections::{BTreeMap, BTreeSet};

use engine::{Call, Header};

use crate::ending::{is_ending, Ending};
use crate::expect::{self, Expected, Outcome};
use crate::faults::{Fault, Severity};
use crate::listed::Listed;
use crate::notation::{Meaning, Names};
use crate::plain::{self, Plain};
use crate::reason;
use crate::record::Record;
use crate::sentence::{self, Stop};
use crate::tokens::{tokens, Cursor, Token, Wrong};
use crate::vocabulary::*;
use crate::walk::Walk;

/// What came of a line that has a record.
#[derive(Clone, Debug)]
pub struct Told {
    pub line: usize,
    pub record: usize,
    pub outcome: Outcome,
    pub reason: String,
    /// None where the line does not say.
    pub expected: Option<Expected>,
}

/// A text that was read.
#[derive(Clone, Debug)]
pub struct Script {
    pub listed: Listed,
    pub told: Vec<Told>,
    /// What the line `end` is expected to tell.
    pub ending: Option<Ending>,
    pub faults: Vec<Fault>,
}

impl Script {
    pub fn is_faulty(&self) -> bool {
        self.faults.iter().any(Fault::is_error)
    }
}

/// How far the records are read.
#[derive(Debug)]
pub enum State {
    Start,
    Open(Box<Walk>),
    /// A refusal ended the reading.
    Ended(u8),
    /// Raw bytes came: which records they are is for the listing to say.
    Raw,
}

/// A line's record and what came of it.
pub struct Done {
    pub record: usize,
    pub outcome: Outcome,
    pub reason: String,
}

pub struct Reader {
    pub state: State,
    /// What each name stands for, and the line that says so.
    pub meanings: BTreeMap<String, (Meaning, usize)>,
    /// Names that a line with a fault would have given.
    pub faulty: BTreeSet<String>,
    /// Names of runs that did not open: the line, and its refusal.
    pub unopened: BTreeMap<String, (usize, u8)>,
    pub ending: Option<Ending>,
    pub line: usize,
    /// It has been told that there is no walk to speak of.
    pub no_walk_told: Cell<bool>,
    bytes: Vec<u8>,
    records: usize,
    told: Vec<Told>,
    faults: Vec<Fault>,
    too_long: bool,
}

/// Reads a text. The faults tell whether its bytes are good for anything.
pub fn read(name: &str, text: &str) -> Script {
    let mut reader = Reader {
        state: State::Start,
        meanings: BTreeMap::new(),
        faulty: BTreeSet::new(),
        unopened: BTreeMap::new(),
        ending: None,
        line: 0,
        no_walk_told: Cell::new(false),
        bytes: Vec::new(),
        records: 0,
        told: Vec::new(),
        faults: Vec::new(),
        too_long: false,
    };
    // a byte order mark is no text; a line ends with a newline, a carriage return or both
    let text = text.strip_prefix('\u{feff}').unwrap_or(text).replace("\r\n", "\n");
    for line in text.split(['\n', '\r']) {
        reader.line += 1;
        reader.read_line(line);
    }
    reader.finish(name)
}

impl Reader {
    /// Gives a name its meaning from this line on.
    pub fn give(&mut self, name: &str, meaning: Meaning) {
        self.meanings.insert(name.to_string(), (meaning, self.line));
        if let State::Open(walk) = &mut self.state {
            walk.names.give(name, meaning);
        }
    }

    fn names(&self) -> Names {
        let mut names = Names::default();
        for (name, &(meaning, _)) in &self.meanings {
            names.give(name, meaning);
        }
        names
    }

    fn fault(&mut self, severity: Severity, wrong: Wrong) {
        let Wrong { column, message } = wrong;
        self.faults.push(Fault { line: self.line, column, severity, message });
    }

    fn warn(&mut self, column: usize, message: String) {
        self.fault(Severity::Warning, Wrong { column, message });
    }

    fn read_line(&mut self, line: &str) {
        self.read_record(line);
        if self.bytes.len() > LONGEST_FILE && !self.too_long {
            self.too_long = true;
            let words = Refusal::told(REFUSED_FILE);
            self.warn(
                1,
                format!("here the walk is too long and gets refusal {REFUSED_FILE}, {words}"),
            );
        }
    }

    fn read_record(&mut self, line: &str) {
        let tokens = tokens(line);
        let split = tokens.iter().position(|token| token.text == "=>");
        let (body, behind) = match split {
            Some(place) => (&tokens[..place], Some(&tokens[place + 1..])),
            None => (&tokens[..], None),
        };
        let Some(last) = tokens.last() else { return };
        let end = last.column + last.text.chars().count();
        if is_ending(body) {
            return self.read_ending(Cursor::behind(end, behind.unwrap_or_default()));
        }
        let expected = behind.map(|behind| expect::read(Cursor::behind(end, behind)));
        let expected = expected.transpose().unwrap_or_else(|wrong| {
            self.fault(Severity::Error, wrong);
            None
        });
        match self.read_body(body) {
            Ok(Some(done)) => self.tell(done, expected, body),
            Ok(None) if expected.is_some() => {
                let message = "nothing can be expected of this line: it has no record";
                let column = split.map_or(1, |place| tokens[place].column);
                self.fault(Severity::Error, Wrong { column, message: message.to_string() });
            }
            Ok(None) => {}
            Err(faults) => faults.into_iter().for_each(|wrong| self.fault(Severity::Error, wrong)),
        }
    }

    fn read_ending(&mut self, behind: Cursor) {
        let column = behind.column();
        match Ending::read(self.line, behind) {
            Ok(_) if self.ending.is_some() => {
                let line = self.ending.as_ref().map_or(0, |ending| ending.line);
                let message = format!("the end is told already, in line {line}");
                self.fault(Severity::Error, Wrong { column, message });
            }
            Ok(ending) => self.ending = Some(ending),
            Err(wrong) => self.fault(Severity::Error, wrong),
        }
    }

    /// Reads a line without what is expected of it; none has no record.
    fn read_body(&mut self, body: &[Token]) -> Result<Option<Done>, Vec<Wrong>> {
        let cursor = Cursor::new(body);
        match cursor.peek() {
            None => Err(vec![Wrong {
                column: 1,
                message: "a record is expected before =>".to_string(),
            }]),
            Some(first) if plain::begins(first) => {
                plain::read(cursor).map(|plain| Some(self.put_plain(plain)))
            }
            Some(_) => self.read_sentence(cursor),
        }
    }

    fn read_sentence(&mut self, cursor: Cursor) -> Result<Option<Done>, Vec<Wrong>> {
        let first = cursor.peek().unwrap_or_default().to_string();
        let names = cursor.second() == Some("=");
        let is_realm = first.eq_ignore_ascii_case("realm");
        let stop = match sentence::perform(self, cursor) {
            Ok(done) => return Ok(done),
            Err(Stop::Refused(done)) => return Ok(Some(done)),
            Err(stop) => stop,
        };
        if is_realm {
            self.no_walk_told.set(true);
        }
        // what the line would have named or sent is not told as missing again
        self.faulty.insert(if names { first } else { format!("{first}.") });
        match stop {
            Stop::Wrong(wrong) => Err(vec![wrong]),
            _ => Err(Vec::new()),
        }
    }

    fn put_plain(&mut self, plain: Plain) -> Done {
        match plain {
            Plain::Record(record) => self.put(record),
            Plain::Raw(bytes) => {
                self.bytes.extend(bytes);
                let done =
                    Done { record: self.records, outcome: Outcome::Unread, reason: String::new() };
                if !matches!(self.state, State::Ended(_)) {
                    self.state = State::Raw;
                }
                done
            }
        }
    }

    /// Puts a record behind the others, and asks the engine if it is still reading.
    pub fn put(&mut self, record: Record) -> Done {
        self.bytes.extend(record.bytes());
        let number = self.records;
        self.records += 1;
        let (outcome, reason) = match (&mut self.state, record.call()) {
            (State::Start, _) => self.put_first(&record),
            (State::Open(walk), Some(call)) => {
                let answer = walk.take(call);
                let taken = walk.taken.last().expect("it was taken");
                (Outcome::Answered(answer), taken.reason.clone())
            }
            (State::Open(_), None) => {
                self.state = State::Ended(REFUSED_RECORD);
                (
                    Outcome::Ended(REFUSED_RECORD),
                    "a walk has one header, its first record".to_string(),
                )
            }
            (State::Ended(_) | State::Raw, _) => (Outcome::Unread, String::new()),
        };
        Done { record: number, outcome, reason }
    }

    fn put_first(&mut self, record: &Record) -> (Outcome, String) {
        let Some(header) = record.header() else {
            self.state = State::Ended(REFUSED_FILE);
            return (Outcome::Ended(REFUSED_FILE), "a header is a walk's first record".to_string());
        };
        match Walk::open(header, self.names()) {
            Ok(walk) => {
                self.state = State::Open(Box::new(walk));
                (Outcome::Opened, String::new())
            }
            Err(refusal) => {
                self.state = State::Ended(refusal);
                (Outcome::Ended(refusal), reason::header(record.mark, &header))
            }
        }
    }

    pub fn call(&mut self, call: Call) -> Done {
        self.put(Record::of_call(call))
    }

    pub fn open(&mut self, header: &Header) -> Done {
        self.put(Record::of_header(header).expect("the mark is in the table"))
    }

    /// Keeps what came of a line, and warns of what the engine will refuse for the
    /// line's own numbers.
    fn tell(&mut self, done: Done, expected: Option<Expected>, body: &[Token]) {
        let Done { record, outcome, reason } = done;
        let refusal = outcome.refusal();
        let is_meant = matches!(expected, Some(Expected::Refused(_) | Expected::Any));
        let warned = [REFUSED_FILE, REFUSED_HEADER, REFUSED_RECORD, REFUSED_KIND, REFUSED_UNUSED];
        if let Some(number) = refusal.filter(|number| warned.contains(number) && !is_meant) {
            let column = body.first().map_or(1, |token| token.column);
            let words = Refusal::told(number);
            self.warn(column, format!("this gets refusal {number}, {words}: {reason}"));
        }
        self.told.push(Told { line: self.line, record, outcome, reason, expected });
    }

    fn finish(mut self, name: &str) -> Script {
        let names = self.names();
        let whole = matches!(self.state, State::Open(_)) && self.bytes.len() <= LONGEST_FILE;
        let state = std::mem::replace(&mut self.state, State::Raw);
        let listed = match state {
            State::Open(walk) if whole => Listed::of_walk(name, self.bytes, Some(*walk)),
            _ => Listed::of_bytes(name, self.bytes, names),
        };
        let mut script =
            Script { listed, told: self.told, ending: self.ending, faults: self.faults };
        script.settle();
        script
    }
}

impl Script {
    /// Where the file is too long or holds raw bytes, the listing says where reading
    /// ended.
    fn settle(&mut self) {
        let Some((record, number)) = self.listed.ended() else { return };
        for told in &mut self.told {
            if told.record == record && told.outcome != Outcome::Ended(number) {
                told.outcome = Outcome::Ended(number);
                told.reason = Refusal::told(number);
            } else if told.record > record {
                told.outcome = Outcome::Unread;
                told.reason.clear();
            }
        }
    }
}
