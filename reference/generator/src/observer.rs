//! Follows a walk record by record and names the cells that each one meets.

use std::collections::{HashMap, HashSet};

use reference::file::{Record, Settings, StepRecord, TermRecord};
use reference::intruder::FIRST_OF_INTRUDER;
use reference::marks::{format_at, MAX_PRINCIPALS};
use reference::realm::{Answer, Entry, Realm, Role, Run, MAX_ENTRIES, MAX_RUNS};
use reference::refusal::Refusal;
use reference::terms::{Message, MAX_TERMS};

use crate::ahead_cells;
use crate::asked_cells::Questions;
use crate::carried_cells::{self, came, under};
use crate::cells::most_added;
use crate::conditions::{facts, Facts};
use crate::forms;
use crate::purge_cells::{left, Purges};

const DEEP: usize = 200;

pub struct Observer {
    pub cells: Vec<String>,
    realm: Realm,
    depths: HashMap<Message, usize>,
    /// Deliveries of step 5 that were refused, by run and m, with the number.
    refused: HashMap<(u8, u16), u8>,
    /// The terms that steps added.
    added_by_steps: HashSet<u16>,
    purges: Purges,
    questions: Questions,
}

impl Observer {
    pub fn new(settings: Settings) -> Observer {
        Observer {
            cells: Vec::new(),
            realm: Realm::new(settings),
            depths: HashMap::new(),
            refused: HashMap::new(),
            added_by_steps: HashSet::new(),
            purges: Purges::default(),
            questions: Questions::default(),
        }
    }

    pub fn met(&mut self, cell: &str) {
        self.cells.push(cell.to_string());
    }

    pub fn met_if(&mut self, condition: bool, cell: &str) {
        if condition {
            self.met(cell);
        }
    }

    pub fn broken(&mut self, rest: &[u8]) {
        self.met("file / refused 3");
        let how = match rest {
            [_] => "one byte",
            [b'T', b'M', ..] => "TM cut short",
            [b'S', b'T', ..] => "ST cut short",
            _ => match format_at(rest) {
                Some(format) => &format!("second {}", format.letters()),
                None => "another mark",
            },
        };
        self.met(&format!("file / refused 3 / {how}"));
    }

    pub fn take(&mut self, record: &Record) {
        let facts = facts(&mut self.realm, record);
        if let Record::Step(step) = record {
            self.before_step(step, &facts);
        }
        let before = self.tables();
        let count = self.realm.terms.count();
        let not_sent = |m: &&Message| !self.realm.wire.contains(*m);
        let newly_sent: HashSet<&Message> = facts.sends.iter().filter(not_sent).collect();
        let answer = self.realm.apply(record);
        let first = facts.applies.first().copied();
        assert_eq!(answer.err().map(Refusal::number), first, "{record:?}");
        assert!(answer.is_ok() || before == self.tables(), "changed by a refused {record:?}");
        if let Ok(answer) = answer {
            let added = facts.new_terms.unwrap_or(0);
            assert_eq!(added_terms(answer), added, "{record:?}");
            assert_eq!(self.realm.terms.count(), count + added, "{record:?}");
        }
        if let (Record::Step(StepRecord { step: 1..=8 | 10, .. }), Ok(_)) = (record, answer) {
            let wire = &self.realm.wire;
            assert!(newly_sent.iter().all(|message| wire.contains(*message)), "{record:?}");
            assert_eq!(wire.len(), before.2 + newly_sent.len(), "{record:?}");
        }
        if let (Record::Step(StepRecord { step: 8, b, .. }), Ok(_)) = (record, answer) {
            assert_eq!(self.realm.cache, left(&self.realm, &before.4, *b), "{record:?}");
        }
        match record {
            Record::Term(term) => self.term(term, &facts, answer),
            Record::Step(step) => self.step(step, &facts, answer),
        }
    }

    /// All that a refused record must leave alone. Terms and wire only grow, so
    /// their sizes stand for them.
    fn tables(&self) -> (u32, usize, usize, Vec<Run>, Vec<Entry>) {
        let realm = &self.realm;
        (
            realm.clock,
            realm.terms.count(),
            realm.wire.len(),
            realm.runs.clone(),
            realm.cache.clone(),
        )
    }

    /// A line for the answer, and one for each refusal that stood behind it.
    fn refusal(&mut self, subject: &str, facts: &Facts, number: u8) {
        self.met(&format!("{subject} / refused {number}"));
        if let Some(detail) = facts.only_detail(number) {
            let cell = format!("{subject} / refused {number} / {detail}");
            let widest = self.realm.settings.principals == MAX_PRINCIPALS;
            self.met_if(widest, &format!("{cell}, n is 32"));
            self.met(&cell);
        }
        for later in facts.applies.iter().skip(1) {
            self.met(&format!("{subject} / refused {number} before {later}"));
        }
    }

    fn term(&mut self, record: &TermRecord, facts: &Facts, answer: Result<Answer, Refusal>) {
        let subject =
            if record.kind > 6 { "TM other".into() } else { format!("TM {}", record.kind) };
        if let Err(refusal) = answer {
            return self.refusal(&subject, facts, refusal.number());
        }
        if let Ok(Answer::Old(number)) = answer {
            self.met(&format!("{subject} / old"));
            let by_a_step = self.added_by_steps.contains(&number);
            self.met_if(by_a_step, &format!("{subject} / old / added by a step"));
            return self.met_if(facts.free_terms == 0, &format!("{subject} / old / full table"));
        }
        self.met(&format!("{subject} / new"));
        self.met_if(facts.free_terms == 1, &format!("{subject} / new / last place"));
        let named = match record.kind {
            0 | 3 => [16, 31].contains(&record.left),
            2 | 4 => record.left == 95,
            _ => false,
        };
        self.met_if(named, &format!("{subject} / new / L is {}", record.left));
        let last = self.realm.terms.present()[self.realm.terms.count() - 1].clone();
        let deep = self.depth(&last) > DEEP;
        self.met_if(deep, &format!("{subject} / new / deeper than 200"));
    }

    /// Depths are kept, so each term is entered once.
    fn depth(&mut self, message: &Message) -> usize {
        if let Some(depth) = self.depths.get(message) {
            return *depth;
        }
        let parts = message.pair().or(message.encrypted());
        let parts = parts.map(|(first, second)| (first.clone(), second.clone()));
        let depth =
            parts.map_or(0, |(first, second)| 1 + self.depth(&first).max(self.depth(&second)));
        self.depths.insert(message.clone(), depth);
        depth
    }

    fn step(&mut self, record: &StepRecord, facts: &Facts, answer: Result<Answer, Refusal>) {
        let step = record.step;
        let subject = if (1..=10).contains(&step) {
            format!("step {step}")
        } else {
            "step other".to_string()
        };
        match answer {
            Ok(answer) => {
                self.met(&format!("{subject} / ok"));
                let last =
                    matches!(answer, Answer::Step { run: Some(run), .. } if run == MAX_RUNS - 1);
                self.met_if(last, &format!("{subject} / ok / run 63"));
                self.added_cells(step, added_terms(answer));
                let last_entry = step == 5 && self.realm.cache.len() == MAX_ENTRIES;
                self.met_if(last_entry, "step 5 / ok / last entry");
                self.principal_cells(record, facts);
            }
            Err(refusal) => {
                let number = refusal.number();
                self.refusal(&subject, facts, number);
                let short = number == 20 && facts.new_terms == Some(facts.free_terms + 1);
                self.met_if(short, &format!("{subject} / refused 20 / one place short"));
                if step == 5 {
                    self.refused.insert((record.run, record.message), number);
                }
            }
        }
    }

    /// How many terms an accepted step added, of those that it can add.
    fn added_cells(&mut self, step: u8, added: usize) {
        let count = self.realm.terms.count();
        self.added_by_steps.extend((count - added..count).map(|number| number as u16));
        let rules = forms::rules(&self.realm);
        if most_added(step, rules) == 0 {
            return;
        }
        let full = count == MAX_TERMS;
        let set = if [3, 4].contains(&step) { under(rules) } else { String::new() };
        self.met(&format!("step {step} / ok / {set}adds {added}"));
        self.met_if(full && added == 0, &format!("step {step} / ok / full table"));
        self.met_if(full && added > 0, &format!("step {step} / ok / last place"));
        let in_part = 0 < added && added < most_added(step, rules);
        self.met_if(full && in_part, &format!("step {step} / ok / last place, some present"));
    }

    /// The principals that an accepted step is about.
    fn principal_cells(&mut self, record: &StepRecord, facts: &Facts) {
        let step = record.step;
        let (a, b) = match (step, facts.read) {
            (1 | 2 | 8, _) => (record.a, record.b),
            (3..=6, Some(read)) => (read.a, read.b),
            _ => return,
        };
        for (name, principal) in [("a", a), ("b", b)] {
            self.met_if(principal > 15, &format!("step {step} / ok / {name} above 15"));
            self.met_if(principal == 31, &format!("step {step} / ok / {name} is 31"));
        }
    }

    /// Cells that are read from the tables as the step finds them.
    fn before_step(&mut self, record: &StepRecord, facts: &Facts) {
        let answer = facts.applies.first().copied();
        self.cells.extend(self.purges.cells(&self.realm, record, facts));
        self.cells.extend(self.questions.cells(&self.realm, record, facts));
        self.cells.extend(carried_cells::cells(&self.realm, record, facts));
        match record.step {
            3..=6 | 10 => {
                self.message_cells(record, facts, answer);
                self.time_cells(record.step, facts, answer);
            }
            7 => {
                let clock = self.realm.clock;
                let ok = answer.is_none();
                self.met_if(ok && record.time == clock, "step 7 / ok / the same clock");
                self.met_if(ok && record.time == u32::MAX, "step 7 / ok / the highest clock");
                let one_less = answer == Some(12) && record.time + 1 == clock;
                self.met_if(one_less, "step 7 / refused 12 / one less");
            }
            8 if answer.is_none() => self.forget_cells(record.b),
            9 if answer.is_none() => {
                let on_wire = |m: &Message| m.session_key() == Some(record.run);
                let again = self.realm.wire.iter().any(on_wire);
                self.met_if(again, "step 9 / ok / again");
            }
            _ => {}
        }
        if record.step == 5 {
            self.cells.extend(ahead_cells::cells(&self.realm, facts));
            self.entry_cells(record, facts, answer);
        }
    }

    fn message_cells(&mut self, record: &StepRecord, facts: &Facts, answer: Option<u8>) {
        let step = record.step;
        let Some(message) = facts.message.clone() else { return };
        let on_wire = self.realm.wire.contains(&message);
        if step == 10 {
            return self.derived_cells(&message, on_wire, answer);
        }
        let (None, Some(read)) = (answer, facts.read) else { return };
        let mut ok = |condition: bool, how: &str| {
            self.met_if(condition, &format!("step {step} / ok / {how}"))
        };
        if step != 5 {
            ok(on_wire, "m on the wire");
            ok(!on_wire, "m made by the intruder");
        }
        if step == 3 {
            ok(read.nonce >= FIRST_OF_INTRUDER, "nonce of the intruder");
            ok(read.nonce < FIRST_OF_INTRUDER, "nonce of another run");
        } else if step != 6 {
            ok(read.key >= FIRST_OF_INTRUDER, "key of the intruder");
            ok(read.key < FIRST_OF_INTRUDER, "key of a server run");
        }
        if let (5, Some((ticket, authenticator))) = (step, message.pair()) {
            let wire = &self.realm.wire;
            let both = wire.contains(ticket) && wire.contains(authenticator);
            let (ticket, authenticator) =
                (came(&self.realm, ticket), came(&self.realm, authenticator));
            self.met_if(both, "step 5 / ok / both halves on the wire");
            self.met_if(!authenticator, "step 5 / ok / authenticator made by the intruder");
            self.met_if(!ticket, "step 5 / ok / ticket made by the intruder");
        }
    }

    fn derived_cells(&mut self, message: &Message, on_wire: bool, answer: Option<u8>) {
        let deep = self.depth(message) > DEEP;
        let is_atom = forms::atom(message).is_some();
        let number = match forms::atom(message) {
            Some((forms::Kind::Nonce, number)) => format!("nonce {number}"),
            Some((forms::Kind::SessionKey, number)) => format!("session key {number}"),
            Some((forms::Kind::LongTermKey, 0)) => "the server's long-term key".into(),
            Some((forms::Kind::LongTermKey, p)) => format!("long-term key of {p}"),
            _ => String::new(),
        };
        match answer {
            _ if number.is_empty() => {}
            None => self.met(&format!("step 10 / ok / {number}")),
            Some(15) => self.met(&format!("step 10 / refused 15 / {number}")),
            _ => {}
        }
        if answer.is_none() {
            self.met_if(on_wire, "step 10 / ok / m on the wire");
            let secret = match forms::atom(message) {
                Some((forms::Kind::SessionKey | forms::Kind::Nonce, number)) => number < 64,
                _ => false,
            };
            self.met_if(!on_wire && secret, "step 10 / ok / m opened by the intruder");
            self.met_if(!on_wire && !is_atom, "step 10 / ok / m made by the intruder");
            self.met_if(deep, "step 10 / ok / deeper than 200");
        }
        if answer == Some(15) {
            let known = self.realm.derivable();
            let key_missing = message.encrypted().is_some_and(|(body, _)| known.contains(body));
            self.met_if(key_missing, "step 10 / refused 15 / a lock, its key alone missing");
            self.met_if(deep, "step 10 / refused 15 / deeper than 200");
        }
    }

    fn time_cells(&mut self, step: u8, facts: &Facts, answer: Option<u8>) {
        let Some(read) = facts.read else { return };
        let settings = self.realm.settings;
        let clock = u64::from(self.realm.clock);
        let ta = read.ta.filter(|_| step == 5);
        let lives = [
            (read.ts, settings.ticket_life, "Ts + Ls", 16),
            (ta, settings.authenticator_life, "Ta + La", 17),
        ];
        for (start, life, name, number) in lives {
            let Some(start) = start else { continue };
            let end = u64::from(start) + u64::from(life);
            let ok = answer.is_none();
            self.met_if(
                ok && clock + 1 == end,
                &format!("step {step} / ok / one tick before {name}"),
            );
            let wraps = end > u64::from(u32::MAX) && end - (1 << 32) <= clock;
            self.met_if(ok && wraps, &format!("step {step} / ok / {name} past 32 bits"));
            let highest = ok && wraps && clock == u64::from(u32::MAX);
            self.met_if(
                highest,
                &format!("step {step} / ok / {name} past 32 bits, the highest clock"),
            );
            let at = answer == Some(number) && clock == end;
            self.met_if(at, &format!("step {step} / refused {number} / at the tick"));
        }
    }

    fn forget_cells(&mut self, b: u8) {
        self.met_if(b == 0, "step 8 / ok / b is 0");
        let (clock, life) =
            (u64::from(self.realm.clock), u64::from(self.realm.settings.authenticator_life));
        for entry in self.realm.cache.clone() {
            let end = u64::from(entry.authenticator_time) + life;
            let own = entry.responder == b;
            self.met_if(own && end == clock, "step 8 / ok / an entry goes at its tick");
            let last = own && b == MAX_PRINCIPALS - 1 && end <= clock;
            self.met_if(last, "step 8 / ok / an entry of 31 goes");
            self.met_if(own && end == clock + 1, "step 8 / ok / an entry stays one tick before");
            self.met_if(
                !own && end <= clock,
                "step 8 / ok / an entry of another stays, though over",
            );
            let wraps = end > u64::from(u32::MAX) && end - (1 << 32) <= clock;
            self.met_if(own && wraps, "step 8 / ok / an entry stays, its sum past 32 bits");
            let highest = own && wraps && clock == u64::from(u32::MAX);
            self.met_if(
                highest,
                "step 8 / ok / an entry stays, its sum past 32 bits, the highest clock",
            );
        }
    }

    fn entry_cells(&mut self, record: &StepRecord, facts: &Facts, answer: Option<u8>) {
        let Some(read) = facts.read else { return };
        let own = (read.b, read.key, read.ta.unwrap_or(0));
        if answer == Some(18) {
            let other_a = self.realm.runs.iter().any(|run| {
                let held =
                    run.held.map(|h| (run.b, h.session_key, h.authenticator_time.unwrap_or(0)));
                run.role == Role::Responder && held == Some(own) && run.a != read.a
            });
            self.met_if(other_a, "step 5 / refused 18 / by a run for another a");
        }
        if answer.is_some() {
            return;
        }
        let (mut b, mut key, mut ta) = (false, false, false);
        for entry in &self.realm.cache {
            let same = (
                entry.responder == own.0,
                entry.session_key == own.1,
                entry.authenticator_time == own.2,
            );
            b |= same == (false, true, true);
            key |= same == (true, false, true);
            ta |= same == (true, true, false);
        }
        self.met_if(b, "step 5 / ok / an entry differs in b alone");
        self.met_if(key, "step 5 / ok / an entry differs in K alone");
        self.met_if(ta, "step 5 / ok / an entry differs in Ta alone");
        let refused = self.refused.get(&(record.run, record.message)).copied();
        self.met_if(refused == Some(15), "step 5 / ok / refused 15 before");
        self.met_if(refused == Some(19), "step 5 / ok / refused 19 before");
        self.met_if(refused == Some(22), "step 5 / ok / refused 22 before");
    }
}

/// How many terms an answer says were added.
fn added_terms(answer: Answer) -> usize {
    match answer {
        Answer::Old(_) => 0,
        Answer::New(_) => 1,
        Answer::Step { added, .. } => added,
    }
}
