//! The program `term_tables`: calls on a lent term table, in a realm of three
//! principals. Its lines, by their letters:
//!
//! - N: everything as it was at first
//! - C: how many terms there are, and how many places are lent
//! - T: a place; kind, L and R
//! - D: a node of the draft; its kind, x and y
//! - F: kind, L, R; finds a term
//! - A: kind, L, R; adds a term
//! - M: a node of the draft; adds its message
//!
//! A draft is a message that is laid out as a table of 16 nodes. The kinds of
//! nodes are those of terms, with x for L and y for R, but for encryptions: 6 is
//! under the long-term key of y, 7 under session key y. 8 is the term of number
//! x. The last three lines write the answer and each place that has changed.

use std::fmt::Write;

use reference::fields::nonce_or_key;
use reference::file::{Record, Settings, TermRecord};
use reference::realm::{Answer, Realm, MAX_ENTRIES};
use reference::refusal::Refusal;
use reference::tables::{Counts, Place, Tables, RUN_WORDS, TERM_PLACES, WIRE_WORDS};
use reference::terms::{Message, Shape};

use crate::calls::{word, word_changes, NO_TERM};
use crate::line::Line;
use crate::Program;

pub const NODES: usize = 16;

/// Kind, x and y.
pub type Node = [u32; 3];

#[derive(Clone, Debug, PartialEq, Eq)]
pub struct Table {
    pub terms: Vec<u64>,
    pub count: usize,
    pub places: usize,
    pub draft: [Node; NODES],
}

impl Default for Table {
    fn default() -> Table {
        Table {
            terms: vec![NO_TERM; TERM_PLACES + 1],
            count: 0,
            places: TERM_PLACES,
            draft: [[0; 3]; NODES],
        }
    }
}

impl Table {
    /// The places that are lent, as the term table of a realm without runs.
    fn lent(&self) -> Tables {
        Tables {
            settings: Settings {
                principals: 3,
                rules: 0,
                flags: 0,
                ticket_life: 1,
                authenticator_life: 1,
            },
            clock: 0,
            counts: Counts { terms: self.count, ..Counts::default() },
            terms: self.terms[..self.places].to_vec(),
            runs: vec![0; RUN_WORDS],
            wire: vec![0; WIRE_WORDS],
            cache: vec![Place::default(); MAX_ENTRIES],
        }
    }

    fn take_back(&mut self, lent: Tables) {
        self.count = lent.counts.terms;
        self.terms[..self.places].copy_from_slice(&lent.terms);
    }

    fn find(&self, word: u64) -> Result<String, Refusal> {
        self.lent().realm()?;
        let place = self.terms[..self.count].iter().position(|term| *term == word);
        Ok(place.map_or("nothing".to_string(), |place| format!("term {place}")))
    }

    pub fn add(&mut self, kind: u32, left: u32, right: u32) -> Result<String, Refusal> {
        let (kind, left, right) = (kind as u8, left as u16, right as u16);
        let mut lent = self.lent();
        let answer = lent.call(&Record::Term(TermRecord { kind, left, right }))?;
        self.take_back(lent);
        Ok(match answer {
            Answer::Old(number) => format!("term {number}, present"),
            Answer::New(number) => format!("term {number}, new"),
            Answer::Step { .. } => panic!("a term was added: {answer:?}"),
        })
    }

    pub fn store(&mut self, root: u32) -> Result<String, Refusal> {
        let mut lent = self.lent();
        let draft = self.draft;
        let number = lent.add_message(|realm| message(realm, &draft, root))?;
        self.take_back(lent);
        Ok(format!("term {number} of {}", self.count))
    }
}

/// The message of a node. A field out of range, or a part that is not present,
/// is refusal 6 in any node of the draft.
fn message(realm: &mut Realm, draft: &[Node; NODES], root: u32) -> Result<Message, Refusal> {
    let mut messages: Vec<Message> = Vec::new();
    for [kind, x, y] in draft {
        let earlier =
            |node: &u32| messages.get(*node as usize).cloned().ok_or(Refusal::BadReference);
        let (x16, y16) = (*x as u16, *y as u16);
        let shape = match kind {
            0 => Shape::Principal(realm.principal(x16)?),
            1 => Shape::Time(*x),
            2 => Shape::Nonce(nonce_or_key(x16.into())?),
            3 => Shape::LongTermKey(realm.principal(x16)?),
            4 => Shape::SessionKey(nonce_or_key(x16.into())?),
            5 => Shape::Pair(earlier(x)?, earlier(y)?),
            6 => {
                let key = Shape::LongTermKey(realm.principal(y16)?);
                Shape::Encrypted(earlier(x)?, realm.terms.make(key))
            }
            7 => {
                let key = Shape::SessionKey(nonce_or_key(y16.into())?);
                Shape::Encrypted(earlier(x)?, realm.terms.make(key))
            }
            _ => {
                messages.push(realm.term(x16)?);
                continue;
            }
        };
        messages.push(realm.terms.make(shape));
    }
    messages.get(root as usize).cloned().ok_or(Refusal::BadReference)
}

impl Program for Table {
    fn obey(&mut self, line: &Line, output: &mut String) {
        let (letter, [a, b, c, d, ..]) = match line {
            Line::Text(text) => return output.push_str(text),
            Line::Numbers(letter, numbers) => (*letter, *numbers),
        };
        let before = self.terms.clone();
        let answer = match letter {
            'N' => return *self = Table::default(),
            'C' => return (self.count, self.places) = (a as usize, b as usize),
            'T' => return self.terms[a as usize] = word(b, c, d),
            'D' => return self.draft[a as usize] = [b, c, d],
            'F' => self.find(word(a, b, c)),
            'A' => self.add(a, b, c),
            'M' => self.store(a),
            _ => panic!("no line begins with {letter}"),
        };
        let _ = match answer {
            Ok(answer) => write!(output, ": {answer}"),
            Err(refusal) => write!(output, ": refused {}", refusal.number()),
        };
        word_changes("term", &before, &self.terms, output);
        output.push('\n');
    }
}
