//! Buffers of every length beside what a file needs, and offsets.

use crate::random::Random;

/// A buffer of random bytes and an offset, for a file of so many bytes. Most have
/// room, so that a byte written against a refusal shows.
pub fn any_buffer(random: &mut Random, needed: usize) -> (Vec<u8>, usize) {
    let at = small_offset(random);
    let (length, at) = match random.below(40) {
        0..=9 => (at + needed, at),
        10..=15 => (at + needed + 1, at),
        16..=25 => (at + needed + random.between(2, 3000) as usize, at),
        26..=28 => (at + needed - 1, at),
        29 => (at + random.below(needed), at),
        30 => (0, random.pick(&[0, 0, at, usize::MAX])),
        31 | 32 => (at, at),
        33 | 34 => (at, at + 1),
        35 => (at + needed, at + needed + random.between(1, 100) as usize),
        36 => (at + needed, random.pick(&[1 << 16, 1 << 31, 1 << 32, 1 << 63])),
        _ => (at + needed, highest_offset(random, needed)),
    };
    (bytes(random, length), at)
}

fn small_offset(random: &mut Random) -> usize {
    let any = random.below(300);
    random.pick(&[0, 0, 0, 1, 2, 7, 13, any, any])
}

/// Offsets whose sum with the length is the highest number or wraps.
fn highest_offset(random: &mut Random, needed: usize) -> usize {
    let last = usize::MAX - needed;
    let small = random.below(needed);
    random.pick(&[usize::MAX, usize::MAX - 1, last, last + 1, last + 1 + small])
}

fn bytes(random: &mut Random, length: usize) -> Vec<u8> {
    let mut bytes = Vec::with_capacity(length + 8);
    while bytes.len() < length {
        bytes.extend(random.number().to_le_bytes());
    }
    bytes.truncate(length);
    bytes
}
