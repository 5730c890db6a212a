//! The marks that a file can begin with: one row of one table for each.

use crate::rules::Rules;

/// A header's layout: its mark, the bytes of its flags, and the highest n; and the
/// rule set that the mark names.
#[derive(Clone, Copy, Debug, PartialEq, Eq)]
pub struct Format {
    /// The mark as a number, high byte first.
    pub mark: u16,
    pub flag_bytes: usize,
    pub most_principals: u8,
    pub rules: Rules,
}

pub const MIN_PRINCIPALS: u8 = 3;
/// The highest n of any realm, whatever mark its header had.
pub const MAX_PRINCIPALS: u8 = 32;

pub const FORMATS: [Format; 4] = [
    Format::new(b"HD", 2, 16, Rules::Apart),
    Format::wide(b"HW", Rules::Apart),
    Format::wide(b"H5", Rules::Beside),
    Format::wide(b"H4", Rules::Within),
];

/// The format with this mark, if there is one.
pub fn format_of(mark: u16) -> Option<&'static Format> {
    FORMATS.iter().find(|format| format.mark == mark)
}

/// The format of the mark that these bytes begin with.
pub fn format_at(bytes: &[u8]) -> Option<&'static Format> {
    format_of(mark(bytes.first_chunk()?))
}

/// The number of a mark.
pub const fn mark(letters: &[u8; 2]) -> u16 {
    u16::from_be_bytes(*letters)
}

/// The letters of a mark, as a listing shows them.
pub fn letters(mark: u16) -> String {
    mark.to_be_bytes().map(char::from).iter().collect()
}

impl Format {
    const fn new(
        letters: &[u8; 2],
        flag_bytes: usize,
        most_principals: u8,
        rules: Rules,
    ) -> Format {
        Format { mark: mark(letters), flag_bytes, most_principals, rules }
    }

    /// "the layout and limits of HW"
    const fn wide(letters: &[u8; 2], rules: Rules) -> Format {
        Format::new(letters, 4, MAX_PRINCIPALS, rules)
    }

    /// Mark, n, flags, Ls and La.
    pub const fn header_bytes(&self) -> usize {
        2 + 1 + self.flag_bytes + 4 + 4
    }

    pub fn letters(&self) -> String {
        letters(self.mark)
    }
}
