//! The program `derive_cases`: what the intruder can derive, in a realm of the
//! server, principal 1, which is good, and principal 2, which is bad. Its lines,
//! by their letters:
//!
//! - C: how many terms there are; how many places of their table and how many
//!   words of the wire are lent
//! - T: a place of the table; kind, L and R
//! - W: a word of the wire, and its halves
//! - Q: a term's number; writes whether the intruder can derive it

use reference::file::{Record, Settings, StepRecord};
use reference::realm::MAX_ENTRIES;
use reference::refusal::Refusal;
use reference::tables::{Counts, Place, Tables, RUN_WORDS, TERM_PLACES, WIRE_WORDS};

use crate::calls::word;
use crate::line::Line;
use crate::Program;

/// How many terms there are, and how many places and words are lent.
#[derive(Clone, Copy, Debug, Default, PartialEq, Eq)]
pub struct Lent {
    pub count: usize,
    pub places: usize,
    pub words: usize,
}

pub struct Questions {
    pub lent: Lent,
    pub terms: Vec<u64>,
    pub wire: Vec<u64>,
}

impl Default for Questions {
    fn default() -> Questions {
        let (terms, wire) = (vec![0; TERM_PLACES + 1], vec![0; WIRE_WORDS + 1]);
        Questions { lent: Lent::default(), terms, wire }
    }
}

impl Questions {
    /// Step 10 asks the same of a realm without runs.
    fn answer(&self, term: u32) -> String {
        let mut tables = Tables {
            settings: Settings {
                principals: 3,
                rules: 0,
                flags: 4,
                ticket_life: 1,
                authenticator_life: 1,
            },
            clock: 0,
            counts: Counts { terms: self.lent.count, ..Counts::default() },
            terms: self.terms[..self.lent.places].to_vec(),
            runs: vec![0; RUN_WORDS],
            wire: self.wire[..self.lent.words].to_vec(),
            cache: vec![Place::default(); MAX_ENTRIES],
        };
        let asks = StepRecord { step: 10, message: term as u16, ..StepRecord::default() };
        match tables.call(&Record::Step(asks)) {
            Ok(_) => ": derivable\n".to_string(),
            Err(Refusal::NotDerivable) => ": not derivable\n".to_string(),
            Err(refusal) => format!(": refused {}\n", refusal.number()),
        }
    }
}

impl Program for Questions {
    fn obey(&mut self, line: &Line, output: &mut String) {
        let (letter, [a, b, c, d, ..]) = match line {
            Line::Text(text) => return output.push_str(text),
            Line::Numbers(letter, numbers) => (letter, *numbers),
        };
        match letter {
            'C' => {
                let [count, places, words] = [a, b, c].map(|number| number as usize);
                self.lent = Lent { count, places, words };
            }
            'T' => self.terms[a as usize] = word(b, c, d),
            'W' => self.wire[a as usize] = u64::from(b) << 32 | u64::from(c),
            'Q' => *output += &self.answer(a),
            _ => panic!("no line begins with {letter}"),
        }
    }
}
