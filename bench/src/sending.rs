//! Walks in which nearly every step puts a message on the wire that was not there:
//! steps 1, 3 and 4 of exchanges until the runs are used up, step 5 of some, and
//! the leak of every key. Only step 2, which step 5 needs, sends nothing.

use generator::random::Random;
use generator::walk::Walk;
use reference::file::{Header, StepRecord};
use reference::marks::{mark, MAX_PRINCIPALS, MIN_PRINCIPALS};
use reference::realm::MAX_RUNS;

use crate::exchange::{accepted, Exchange, STEP};
use crate::walks::{GOOD, SEED};

/// An exchange that is taken further now and then.
struct Sending {
    exchange: Exchange,
    answered: bool,
    stage: usize,
}

/// Steps 1, 3, 4, 5 and 9.
const STAGES: usize = 5;

impl Sending {
    fn goes_on(&mut self, walk: &mut Walk) {
        match self.stage {
            0 => self.exchange.asks(walk),
            1 => self.exchange.is_served(walk),
            2 => self.exchange.takes_key(walk),
            3 if self.answered => {
                self.exchange.meets(walk);
                accepted(walk, self.exchange.delivers());
            }
            3 => {}
            _ => accepted(walk, StepRecord { step: 9, run: self.exchange.server, ..STEP }),
        }
        self.stage += 1;
    }
}

/// A walk that goes through its exchanges one after the other, through all at
/// once, through a few at once, or through any in turn.
pub fn file(number: u64) -> Vec<u8> {
    let mut random = Random::new(SEED, number);
    let header = header(&mut random);
    let mut walk = Walk::new(random, header);
    let mut exchanges = exchanges(&mut walk, 2 + number as usize % 3);
    let few = walk.random.between(2, 6) as usize;
    match number % 4 {
        0 => in_groups(&mut walk, &mut exchanges, 1),
        1 => in_groups(&mut walk, &mut exchanges, MAX_RUNS),
        2 => in_groups(&mut walk, &mut exchanges, few),
        _ => in_any_order(&mut walk, &mut exchanges),
    }
    walk.bytes
}

/// About a quarter of the principals are bad.
fn header(random: &mut Random) -> Header {
    let principals = random.between(MIN_PRINCIPALS.into(), MAX_PRINCIPALS.into()) as u8;
    let all_but_server = (1u64 << principals) - 2;
    let flags = (random.number() & random.number() & all_but_server) as u32;
    Header { mark: mark(b"HW"), principals, flags, ..GOOD }
}

/// As many as there are runs for. One of so many is answered.
fn exchanges(walk: &mut Walk, of: usize) -> Vec<Sending> {
    let (mut exchanges, mut free) = (Vec::new(), MAX_RUNS);
    while free >= 2 {
        let answered = exchanges.len() % of == 1 && free >= 3;
        free -= if answered { 3 } else { 2 };
        let (a, b) = walk.two_clients();
        exchanges.push(Sending { exchange: Exchange::between(a, b), answered, stage: 0 });
    }
    exchanges
}

/// Each stage in all exchanges of a group, and the leaks at the end of the walk.
fn in_groups(walk: &mut Walk, exchanges: &mut [Sending], size: usize) {
    for group in exchanges.chunks_mut(size) {
        for _ in 1..STAGES {
            group.iter_mut().for_each(|exchange| exchange.goes_on(walk));
        }
    }
    exchanges.iter_mut().for_each(|exchange| exchange.goes_on(walk));
}

/// The leaks among the rest.
fn in_any_order(walk: &mut Walk, exchanges: &mut [Sending]) {
    let mut left: Vec<usize> = (0..exchanges.len()).flat_map(|place| [place; STAGES]).collect();
    while !left.is_empty() {
        let place = left.swap_remove(walk.random.below(left.len()));
        exchanges[place].goes_on(walk);
    }
}
