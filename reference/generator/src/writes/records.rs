//! Records in words that the writer takes, and words that spoil them.

use reference::fields::{uses, Uses, MAX_KIND};
use reference::marks::FORMATS;
use reference::writing::{RECORD_WORDS, STEP_MARK, TERM_MARK};

use crate::random::Random;

pub type Words = [u32; RECORD_WORDS];

/// A record of any kind or step, its fields often at the ends of their ranges,
/// with anything behind the fields of a TM record.
pub fn good(random: &mut Random, n: u32) -> Words {
    if random.one_in(3) {
        let kind = random.between(0, MAX_KIND);
        good_term(random, n, kind)
    } else {
        let step = random.between(1, 10);
        good_step(random, n, step)
    }
}

pub fn good_term(random: &mut Random, n: u32, kind: u32) -> Words {
    let left = match kind {
        0 | 3 => up_to(random, n - 1),
        2 | 4 => up_to(random, 95),
        _ => up_to(random, 65_535),
    };
    let right = if matches!(kind, 1 | 5 | 6) { up_to(random, 65_535) } else { 0 };
    let mut words = [TERM_MARK, kind, left, right, 0, 0, 0];
    if random.one_in(4) {
        words[4..].fill_with(|| random.number() as u32);
    }
    words
}

pub fn good_step(random: &mut Random, n: u32, step: u32) -> Words {
    let uses = uses(step).unwrap_or_default();
    let mut field = |used: bool, highest: u32| if used { up_to(random, highest) } else { 0 };
    let run = field(uses.run, 255);
    let mut b = field(uses.b, n - 1);
    let message = field(uses.message, 65_535);
    let time = field(uses.time, u32::MAX);
    let mut a = 0;
    if uses.a {
        (a, b) = two_clients(random, n);
    }
    [STEP_MARK, step, run, a, b, message, time]
}

fn two_clients(random: &mut Random, n: u32) -> (u32, u32) {
    let a = 1 + up_to(random, n - 2);
    let others: Vec<u32> = (1..n).filter(|b| *b != a).collect();
    (a, random.pick(&others))
}

/// 0 to this number, often the ends.
fn up_to(random: &mut Random, highest: u32) -> u32 {
    let any = random.between(0, highest);
    random.pick(&[0, 1, highest - 1, highest, highest, any, any, any])
}

/// Changes one word so that the record is most likely refused: the mark, the
/// kind or step, or a field.
pub fn spoil(random: &mut Random, n: u32, words: &mut Words) {
    let fields = if words[0] == TERM_MARK { 3 } else { 6 };
    let place = if random.one_in(16) { 0 } else { 1 + random.below(fields) };
    let value = match place {
        0 => return words[0] = any_mark(random),
        1 => wrong_operation(random),
        _ => wrong_field(random, n, words, place),
    };
    words[place] = value;
}

pub fn any_mark(random: &mut Random) -> u32 {
    let mark = random.pick(&[TERM_MARK, STEP_MARK]);
    let any = random.number() as u32;
    let header = u32::from(random.pick(&FORMATS).mark);
    random.pick(&[0, mark - 1, mark + 1, header, 0x4d54, mark << 16, mark | 1 << 16, any, u32::MAX])
}

fn wrong_operation(random: &mut Random) -> u32 {
    let good = random.between(1, 6);
    random.pick(&[0, 7, 11, 12, 255, 256, 256 + good, 65_536 + good, good | 1 << 31, u32::MAX])
}

/// A value past the end of a field that the record uses, or not 0.
fn wrong_field(random: &mut Random, n: u32, words: &Words, place: usize) -> u32 {
    let (first, width) = range(n, words, place);
    if first == 0 {
        let any = random.number() as u32 | 1;
        return random.pick(&[1, any, past(width), 1 << 31, u32::MAX]);
    }
    let wide = past(width) + random.between(0, 2);
    let twin = if place == 3 { words[4] } else { words[3] };
    random.pick(&[first, first, first.saturating_add(1), wide, wide | 1 << 31, 0, twin, u32::MAX])
}

/// The first number that is wider; 1 where none is.
fn past(width: u32) -> u32 {
    1u32.checked_shl(width).unwrap_or(1)
}

/// The first number that is out of range (0: the field is not used), and the
/// field's width in the file.
fn range(n: u32, words: &Words, place: usize) -> (u32, u32) {
    let if_used = |used: bool, first: u32| if used { first } else { 0 };
    if words[0] == TERM_MARK {
        return match (place, words[1]) {
            (2, 0 | 3) => (n, 16),
            (2, 2 | 4) => (96, 16),
            (3, kind) => (if_used(matches!(kind, 1 | 5 | 6), 65_536), 16),
            _ => (65_536, 16),
        };
    }
    let Uses { run, a, b, message, time } = uses(words[1]).unwrap_or_default();
    match place {
        2 => (if_used(run, 256), 8),
        3 => (if_used(a, n), 8),
        4 => (if_used(b, n), 8),
        5 => (if_used(message, 65_536), 16),
        _ => (if_used(time, u32::MAX), 32),
    }
}
