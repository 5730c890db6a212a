//! Headers of every mark: good ones, and ones with a value spoilt.

use reference::file::Header;
use reference::marks::{Format, FORMATS};

use crate::random::Random;

/// Numbers of principals, those at the limits of some mark among them.
const COUNTS: [u8; 14] = [3, 3, 4, 4, 5, 8, 15, 16, 16, 17, 24, 31, 32, 32];

/// Numbers that are too low or too high under some mark.
const SPOILT_COUNTS: [u8; 10] = [0, 1, 2, 2, 17, 18, 32, 33, 33, 255];

pub fn any_header(random: &mut Random) -> Header {
    let format = random.pick(&FORMATS);
    let counts: Vec<u8> = COUNTS.into_iter().filter(|n| *n <= format.most_principals).collect();
    let principals = random.pick(&counts);
    let clients = ((1u64 << principals) - 2) as u32;
    let flags = match random.below(4) {
        0 | 1 => 0,
        2 => random.number() as u32 & random.number() as u32,
        _ => random.pick(&[random.clone().number() as u32, u32::MAX]),
    };
    Header {
        mark: format.mark,
        principals,
        flags: flags & clients,
        ticket_life: life(random, &[1, 5, 20, 100, 1000]),
        authenticator_life: life(random, &[1, 2, 10, 100]),
    }
}

/// A header of five principals or more. 2 and 3 are bad, so that the intruder makes
/// deliveries for them, and tickets live so many ticks or longer.
pub fn with_bad_responders(random: &mut Random, ticket_life: u32) -> Header {
    let mut header = any_header(random);
    header.principals = header.principals.max(5);
    header.flags |= 0b1100;
    header.ticket_life = header.ticket_life.max(ticket_life);
    header
}

fn life(random: &mut Random, usual: &[u32]) -> u32 {
    match random.below(10) {
        0 => random.pick(&[u32::MAX, u32::MAX - 1, 1 << 31]),
        1 => random.between(1, 1 << 16),
        _ => random.pick(usual),
    }
}

/// A header with one value or two at or past the ends of its range.
pub fn spoilt_header(random: &mut Random) -> Header {
    let mut header = any_header(random);
    let format = format_of(&header);
    let bad: Vec<u8> =
        SPOILT_COUNTS.into_iter().filter(|n| *n < 3 || *n > format.most_principals).collect();
    for _ in 0..random.pick(&[1, 1, 1, 2]) {
        let at_n = 1u64 << header.principals.min(32);
        match random.below(12) {
            0..=2 => header.principals = random.pick(&bad),
            3 => header.flags |= 1,
            4..=5 => header.flags |= at_n as u32,
            6 => header.flags |= (at_n << 1) as u32,
            7..=9 => {
                let flag = random.pick(&[15, 16, 31]);
                let n = random.pick(&[flag, flag - 1, header.principals]);
                header.principals = n.min(format.most_principals);
                header.flags &= ((1u64 << header.principals) - 1) as u32;
                header.flags |= 1 << flag;
            }
            10 => header.ticket_life = 0,
            _ => header.authenticator_life = 0,
        }
    }
    header
}

fn format_of(header: &Header) -> &'static Format {
    reference::marks::format_of(header.mark).expect("a good header's mark is in the table")
}

/// A mark that no header has.
pub fn unknown_mark(random: &mut Random) -> u16 {
    let mark = random.pick(&FORMATS).mark;
    random.pick(&[0, mark.swap_bytes(), mark | 0x2020, mark ^ 0x8000, 0x4858, 0x544d, 0x5354])
}
