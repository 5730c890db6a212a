//! What the intruder derives, asked in another way: first take apart all that
//! was sent as far as it goes, then ask whether the goal can be put together.

use std::collections::{HashMap, HashSet};

use reference::file::Settings;
use reference::intruder::derivable;
use reference::terms::{Message, Shape, Terms};

struct Numbers(u64);

impl Numbers {
    fn below(&mut self, n: usize) -> usize {
        self.0 ^= self.0 << 13;
        self.0 ^= self.0 >> 7;
        self.0 ^= self.0 << 17;
        (self.0 % n as u64) as usize
    }
}

fn own(settings: &Settings, message: &Message) -> bool {
    match *message.shape() {
        Shape::Principal(_) | Shape::Time(_) => true,
        Shape::LongTermKey(p) => settings.flags & 1 << p != 0,
        Shape::Nonce(i) | Shape::SessionKey(i) => (64..=95).contains(&i),
        _ => false,
    }
}

/// Takes messages apart until nothing comes out; locks wait for their keys.
fn taken_apart(settings: &Settings, wire: &HashSet<Message>) -> HashSet<Message> {
    let mut known = HashSet::new();
    let mut waiting: HashMap<Message, Vec<Message>> = HashMap::new();
    let mut todo: Vec<Message> = wire.iter().cloned().collect();
    while let Some(message) = todo.pop() {
        if !known.insert(message.clone()) {
            continue;
        }
        todo.extend(waiting.remove(&message).unwrap_or_default());
        if let Some((left, right)) = message.pair() {
            todo.extend([left.clone(), right.clone()]);
        }
        if let Some((body, key)) = message.encrypted() {
            if known.contains(key) || own(settings, key) {
                todo.push(body.clone());
            } else {
                waiting.entry(key.clone()).or_default().push(body.clone());
            }
        }
    }
    known
}

fn put_together(
    settings: &Settings,
    known: &HashSet<Message>,
    goal: &Message,
    done: &mut HashMap<Message, bool>,
) -> bool {
    if let Some(answer) = done.get(goal) {
        return *answer;
    }
    let parts = goal.pair().or(goal.encrypted());
    let answer = known.contains(goal)
        || own(settings, goal)
        || parts.is_some_and(|(first, second)| {
            put_together(settings, known, first, done)
                && put_together(settings, known, second, done)
        });
    done.insert(goal.clone(), answer);
    answer
}

fn random_tables(numbers: &mut Numbers) -> (Settings, Terms, HashSet<Message>) {
    let flags = (numbers.below(8) * numbers.below(2) * 2) as u32;
    let settings =
        Settings { principals: 4, rules: 0, flags, ticket_life: 1, authenticator_life: 1 };
    let mut terms = Terms::default();
    for _ in 0..4 + numbers.below(80) {
        let count = terms.count();
        let any =
            |numbers: &mut Numbers, terms: &Terms| terms.present()[numbers.below(count)].clone();
        let shape = match numbers.below(if count > 0 { 12 } else { 5 }) {
            0 => Shape::Principal(numbers.below(4) as u8),
            1 => Shape::Nonce(numbers.below(6) as u8 + if numbers.below(4) == 0 { 62 } else { 0 }),
            2 => Shape::LongTermKey(numbers.below(4) as u8),
            3 | 4 => Shape::SessionKey(
                numbers.below(5) as u8 + if numbers.below(6) == 0 { 62 } else { 0 },
            ),
            5..=7 => Shape::Pair(any(numbers, &terms), any(numbers, &terms)),
            _ => {
                let key = any(numbers, &terms);
                if !matches!(key.shape(), Shape::LongTermKey(_) | Shape::SessionKey(_)) {
                    continue;
                }
                Shape::Encrypted(any(numbers, &terms), key)
            }
        };
        let message = terms.make(shape);
        let missing = terms.missing(&[message]);
        terms.add(missing);
    }
    let share = 2 + numbers.below(8);
    let compound = |m: &&Message| m.pair().is_some() || m.encrypted().is_some();
    let wire = terms
        .present()
        .iter()
        .filter(compound)
        .filter(|_| numbers.below(share) == 0)
        .cloned()
        .collect();
    (settings, terms, wire)
}

#[test]
fn both_ways_agree_on_random_tables() {
    let mut numbers = Numbers(88172645463325252);
    let (mut yes, mut no, mut opened) = (0, 0, 0);
    for _ in 0..3_000 {
        let (settings, terms, wire) = random_tables(&mut numbers);
        let found = derivable(&settings, &terms, &wire);
        let known = taken_apart(&settings, &wire);
        let mut done = HashMap::new();
        for message in terms.present() {
            let expected = put_together(&settings, &known, message, &mut done);
            assert_eq!(found.contains(message), expected);
            *if expected { &mut yes } else { &mut no } += 1;
            opened += usize::from(known.contains(message) && !wire.contains(message));
        }
        assert!(found.iter().all(|message| terms.number(message).is_some()));
    }
    // Neither answer is rare, and much was opened.
    assert!(yes > 10_000 && no > 10_000 && opened > 5_000, "{yes} {no} {opened}");
}

#[test]
fn more_on_the_wire_gives_no_less() {
    let mut numbers = Numbers(362436069);
    for _ in 0..300 {
        let (settings, terms, wire) = random_tables(&mut numbers);
        let found = derivable(&settings, &terms, &wire);
        let mut more = wire.clone();
        more.insert(terms.present()[numbers.below(terms.count())].clone());
        assert!(found.is_subset(&derivable(&settings, &terms, &more)));
        // What is derived adds nothing when it is sent.
        assert!(derivable(&settings, &terms, &found) == found);
    }
}
