//! The cases of `call_cases`: document 01's cases F and A to D as walks, the rule
//! sets, every refusal of a call, 10 in each of its causes, times from the future at
//! the exact ticks, every table filled to its last place, terms that are known
//! before, the two calls on the replay cache alone, and purges that forget some
//! entries of a list, in patterns. Places past the counts hold what is no term, run
//! or entry, or an entry that must not be read.

mod ahead;
mod broken;
mod full;
mod known;
mod patterns;
mod refused;
mod rules;
mod thin;
mod walks;

use reference::file::{Header, Settings};
use reference::marks::mark;
use reference::tables::ROW;

use crate::calls::{record, Lent, World};
use crate::line::Line;
use crate::Script;

/// A line that calls: A with kind, L and R, S with step, run, a, b, m and t, M
/// with b, K and Ta, or F with b, clock and La.
#[derive(Clone, Copy)]
struct Call(char, [u32; 6]);

fn term(kind: u32, left: u32, right: u32) -> Call {
    Call('A', [kind, left, right, 0, 0, 0])
}

fn step(number: u32, run: u32, a: u32, b: u32, m: u32, t: u32) -> Call {
    Call('S', [number, run, a, b, m, t])
}

/// Steps 1 and 2.
fn opens(number: u32, a: u32, b: u32) -> Call {
    step(number, 0, a, b, 0, 0)
}

/// Step 3.
fn serves(m: u32) -> Call {
    step(3, 0, 0, 0, m, 0)
}

/// Steps 4, 5 and 6.
fn takes(number: u32, run: u32, m: u32) -> Call {
    step(number, run, 0, 0, m, 0)
}

/// Step 7.
fn tick(t: u32) -> Call {
    step(7, 0, 0, 0, 0, t)
}

/// Step 8.
fn forgets(b: u32) -> Call {
    step(8, 0, 0, b, 0, 0)
}

/// Step 9.
fn leaks(run: u32) -> Call {
    step(9, run, 0, 0, 0, 0)
}

/// Step 10.
fn asks(m: u32) -> Call {
    step(10, 0, 0, 0, m, 0)
}

/// `remember`, alone.
fn remembers(b: u32, k: u32, ta: u32) -> Call {
    Call('M', [b, k, ta, 0, 0, 0])
}

/// `forget`, alone.
fn purges(b: u32, clock: u32, life: u32) -> Call {
    Call('F', [b, clock, life, 0, 0, 0])
}

/// The world after a call that is accepted.
fn made(world: &World, call: Call) -> World {
    let mut world = world.clone();
    assert!(world.call(&record(call.0, call.1)).is_ok());
    world
}

fn made_all(world: &World, calls: &[Call]) -> World {
    calls.iter().fold(world.clone(), |world, call| made(&world, *call))
}

const HEADER: Header =
    Header { mark: mark(b"HD"), principals: 3, flags: 0, ticket_life: 100, authenticator_life: 10 };

/// The most principals that a realm can have.
const WIDE: Header = Header { mark: mark(b"HW"), principals: 32, ..HEADER };

/// Lives that no clock of a file is above.
const LONG: Header = Header { ticket_life: u32::MAX, authenticator_life: u32::MAX, ..HEADER };

fn opened(header: Header) -> World {
    let mut world = World::default();
    world.open(header).expect("a header that passes");
    world
}

/// At clock 5: run 0, an initiator after step 4; run 1, the server's; run 2, a
/// responder that accepted; run 3, one just opened. The terms are 0 to 18, with
/// K as term 5, the part for 1 as 11, the ticket 15, the authenticator 16, the
/// delivery 17 and the confirmation 18. One entry is remembered.
fn exchanged() -> World {
    exchanged_in(HEADER)
}

fn exchanged_in(header: Header) -> World {
    let calls = [
        tick(5),
        opens(1, 1, 2),
        serves(4),
        takes(4, 0, 11),
        opens(2, 1, 2),
        term(5, 15, 16),
        takes(5, 2, 17),
        opens(2, 1, 2),
    ];
    made_all(&opened(header), &calls)
}

/// Behind the t terms that there are: this time, the initiator's part with it, that
/// under K, and the delivery, which is term t + 3.
fn dated(world: &World, ta: u32) -> World {
    let t = world.tables.counts.terms as u32;
    let time = term(1, ta >> 16, ta & 0xffff);
    made_all(world, &[time, term(5, 0, t), term(6, t + 1, 5), term(5, 15, t + 2)])
}

/// The same with as many ticks after the clock as there are entries, so that each
/// is another. Then a responder run.
fn prepared(world: &World) -> World {
    let ta = world.tables.clock + world.tables.counts.entries as u32;
    made(&dated(world, ta), opens(2, 1, 2))
}

impl Script<World> {
    /// Goes over to these tables, on the shorter way: from those that there are,
    /// or from new ones.
    fn set(&mut self, wanted: &World) {
        let change = lines_between(&self.program, wanted);
        let anew = lines_between(&World::default(), wanted);
        if anew.len() + 1 < change.len() {
            self.numbers('N', &[]);
            anew.into_iter().for_each(|line| self.line(line));
        } else {
            change.into_iter().for_each(|line| self.line(line));
        }
    }

    fn call(&mut self, text: &str, call: Call) {
        self.text(text);
        self.numbers(call.0, &call.1);
    }

    /// A call on these tables.
    fn case(&mut self, text: &str, from: &World, call: Call) {
        self.set(from);
        self.call(text, call);
    }

    fn open(&mut self, text: &str, header: Header) {
        let Header { mark, principals, flags, ticket_life, authenticator_life } = header;
        let (mark, n) = (mark.into(), principals.into());
        self.text(text);
        self.numbers('O', &[mark, n, flags, ticket_life, authenticator_life]);
    }

    /// Calls one after the other, from a new realm.
    fn walk(&mut self, name: &str, header: Header, calls: &[Call]) {
        self.set(&World::default());
        self.open(&format!("{name}, a new realm"), header);
        self.calls(name, calls);
    }

    fn calls(&mut self, name: &str, calls: &[Call]) {
        for (number, call) in calls.iter().enumerate() {
            self.call(&format!("{name}, {}: {}", number + 1, told(*call)), *call);
        }
    }
}

/// The lines that set what is other than wanted.
fn lines_between(now: &World, wanted: &World) -> Vec<Line> {
    let (old, new) = (&now.tables, &wanted.tables);
    let mut lines = Vec::new();
    let mut set = |letter: char, numbers: &[u32]| lines.push(Line::new(letter, numbers));
    let (counts, lent) = (new.counts, wanted.lent);
    let header = |world: &World| {
        let Settings { principals, flags, ticket_life, authenticator_life, .. } =
            world.tables.settings;
        let (clock, places) = (world.tables.clock, world.lent.cache as u32);
        [principals.into(), flags, ticket_life, authenticator_life, clock, places]
    };
    if header(now) != header(wanted) {
        set('H', &header(wanted));
    }
    if old.settings.rules != new.settings.rules {
        set('G', &[new.settings.rules.into()]);
    }
    let others = |lent: Lent| (lent.terms, lent.runs, lent.wire);
    if (old.counts, others(now.lent)) != (counts, others(lent)) {
        let numbers = [counts.terms, counts.runs, counts.entries, lent.terms, lent.runs, lent.wire];
        set('C', &numbers.map(|number| number as u32));
    }
    for (place, word) in changed(&old.terms, &new.terms) {
        let (left, right) = ((word >> 16) as u16, word as u16);
        set('T', &[place, (word >> 32) as u32, left.into(), right.into()]);
    }
    for (place, value) in changed(&old.runs, &new.runs) {
        set('R', &[place / ROW as u32, place % ROW as u32, value]);
    }
    for (place, word) in changed(&old.wire, &new.wire) {
        set('W', &[place, (word >> 32) as u32, word as u32]);
    }
    for (place, entry) in changed(&old.cache, &new.cache) {
        set('E', &[place, entry.b.into(), entry.k.into(), entry.ta]);
    }
    lines
}

/// The places that differ, with what is new.
fn changed<T: Copy + PartialEq>(old: &[T], new: &[T]) -> Vec<(u32, T)> {
    let places = old.iter().zip(new).enumerate();
    places.filter(|(_, (old, new))| old != new).map(|(i, (_, new))| (i as u32, *new)).collect()
}

/// A call in words.
fn told(call: Call) -> String {
    let Call(letter, [number, run, a, b, m, t]) = call;
    match letter {
        'A' => return format!("term {number} {run} {a}"),
        'M' => return format!("remember {number} {run} {a}"),
        'F' => return format!("forget {number} at {run}, La {a}"),
        _ => (),
    }
    match number {
        1 | 2 => format!("step {number}, {a} and {b}"),
        3 | 10 => format!("step {number}, m {m}"),
        7 => format!("step 7, t {t}"),
        8 => format!("step 8, b {b}"),
        9 => format!("step 9, run {run}"),
        _ => format!("step {number}, run {run}, m {m}"),
    }
}

pub fn script() -> Script<World> {
    let mut script = Script::new(World::default());
    walks::lettered(&mut script);
    walks::long_lives(&mut script);
    walks::leaked_key(&mut script);
    rules::exchanges(&mut script);
    rules::another_x(&mut script);
    rules::openings(&mut script);
    rules::named(&mut script);
    rules::not_named(&mut script);
    refused::principals(&mut script);
    broken::openings(&mut script);
    broken::headers(&mut script);
    broken::lengths_and_counts(&mut script);
    broken::terms(&mut script);
    broken::runs(&mut script);
    broken::entries_and_marks(&mut script);
    refused::unknown_and_unused(&mut script);
    refused::out_of_range(&mut script);
    refused::role_and_clock(&mut script);
    refused::messages(&mut script);
    refused::lives(&mut script);
    ahead::at_clock_0(&mut script);
    ahead::exact_ticks(&mut script);
    ahead::order(&mut script);
    full::all_runs(&mut script);
    full::all_terms(&mut script);
    full::all_entries(&mut script);
    known::terms(&mut script);
    known::requests(&mut script);
    known::replies(&mut script);
    known::authenticators(&mut script);
    known::carried_tickets(&mut script);
    known::full_table(&mut script);
    thin::lives(&mut script);
    thin::sixteen(&mut script);
    thin::others_stay(&mut script);
    thin::behind_the_count(&mut script);
    thin::misfits(&mut script);
    patterns::each(&mut script);
    patterns::in_turn(&mut script);
    patterns::found_again(&mut script);
    script
}
