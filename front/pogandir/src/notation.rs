//! Terms in the notation of document 01: [p, q, r] is a pair of p and the pair of q
//! and r, {m}k is m encrypted under k, K(p) the long-term key of p, k1 session key 1,
//! N0 nonce 0, t5 time 5.
//!
//! Terms share their parts, so one of 500 terms can have 2^400 leaves. What is
//! deeper or longer than a line is good for is cut; a cut names its term.

use std::collections::BTreeMap;

use engine::{Tables, Term};

use crate::vocabulary::{ENCRYPTED, LONG_TERM_KEY, NONCE, PAIR, PRINCIPAL, SESSION_KEY, TIME};

/// Layers that are shown, and parts.
pub const DEPTH: usize = 6;
pub const PARTS: usize = 48;

/// What a planner's name stands for.
#[derive(Clone, Copy, Debug, PartialEq, Eq)]
pub enum Meaning {
    Principal(u8),
    Run(u8),
    Message(u16),
}

/// The planner's names of principals and runs.
#[derive(Clone, Debug, Default, PartialEq, Eq)]
pub struct Names {
    pub principals: BTreeMap<u8, String>,
    pub runs: BTreeMap<u8, String>,
}

impl Names {
    /// A message is shown in full, whatever its name.
    pub fn give(&mut self, name: &str, meaning: Meaning) {
        match meaning {
            Meaning::Principal(number) => drop(self.principals.insert(number, name.to_string())),
            Meaning::Run(number) => drop(self.runs.insert(number, name.to_string())),
            Meaning::Message(_) => {}
        }
    }

    pub fn principal(&self, number: u8) -> String {
        match self.principals.get(&number) {
            Some(name) => name.clone(),
            None if number == 0 => "server".to_string(),
            None => format!("p{number}"),
        }
    }

    pub fn run(&self, number: u8) -> String {
        match self.runs.get(&number) {
            Some(name) => name.clone(),
            None => format!("run {number}"),
        }
    }
}

/// A stretch of notation, or a term that is not shown here.
#[derive(Clone, Debug, PartialEq, Eq)]
pub enum Piece {
    Text(String),
    Cut(u16),
}

/// A term in notation, in pieces.
pub fn pieces(tables: &Tables, names: &Names, term: u16) -> Vec<Piece> {
    pieces_up_to(PARTS, tables, names, term)
}

/// The same of at most so many parts, where there is less room.
pub fn pieces_up_to(parts: usize, tables: &Tables, names: &Names, term: u16) -> Vec<Piece> {
    let mut writer = Writer { tables, names, left: parts, done: Vec::new() };
    writer.term(term, DEPTH);
    writer.done
}

impl Piece {
    /// A cut is shown as … and the term's number.
    pub fn text(&self) -> String {
        match self {
            Piece::Text(text) => text.clone(),
            Piece::Cut(number) => format!("…{number}"),
        }
    }
}

/// A term in notation, as one text.
pub fn notation(tables: &Tables, names: &Names, term: u16) -> String {
    pieces(tables, names, term).iter().map(Piece::text).collect()
}

struct Writer<'a> {
    tables: &'a Tables,
    names: &'a Names,
    left: usize,
    done: Vec<Piece>,
}

impl Writer<'_> {
    fn text(&mut self, text: &str) {
        if let Some(Piece::Text(last)) = self.done.last_mut() {
            last.push_str(text);
        } else {
            self.done.push(Piece::Text(text.to_string()));
        }
    }

    fn term(&mut self, number: u16, depth: usize) {
        let Some(term) = self.tables.term(number) else {
            return self.text(&format!("term {number}, which is not there"));
        };
        let Term { kind, l, r } = term;
        self.left = self.left.saturating_sub(1);
        match kind {
            PAIR | ENCRYPTED if depth == 0 || self.left == 0 => self.done.push(Piece::Cut(number)),
            PAIR => self.enclosed("[", number, "]", depth),
            ENCRYPTED => {
                self.enclosed("{", l, "}", depth);
                self.term(r, depth - 1);
            }
            _ => self.text(&atom(self.names, kind, l, r)),
        }
    }

    /// A list in its brackets: the left halves, then what is no pair.
    fn enclosed(&mut self, open: &str, number: u16, close: &str, depth: usize) {
        self.text(open);
        let mut rest = number;
        while let Some(Term { kind: PAIR, l, r }) = self.tables.term(rest) {
            if self.left == 0 {
                break;
            }
            self.term(l, depth - 1);
            self.text(", ");
            rest = r;
        }
        self.term(rest, depth - 1);
        self.text(close);
    }
}

fn atom(names: &Names, kind: u8, l: u16, r: u16) -> String {
    match kind {
        PRINCIPAL => names.principal(l as u8),
        TIME => format!("t{}", u32::from(l) << 16 | u32::from(r)),
        NONCE => format!("N{l}"),
        LONG_TERM_KEY => format!("K({})", names.principal(l as u8)),
        SESSION_KEY => format!("k{l}"),
        _ => format!("kind {kind}"),
    }
}
