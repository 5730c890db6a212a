//! Refusals 4, 5 and 6 as far as a record's own fields settle them. Whether a
//! run or a term is present depends on the walk; the realm looks at that.
//!
//! The fields come as 32 bits each, so that a number wider than its field in
//! the file can be turned away too.

use crate::file::{StepRecord, TermRecord};
use crate::refusal::Refusal;
use crate::terms::MAX_NONCE_OR_KEY;

pub const MAX_KIND: u32 = 6;

/// Which fields a step uses, by the paper's column "uses".
#[derive(Clone, Copy, Debug, Default)]
pub struct Uses {
    pub run: bool,
    pub a: bool,
    pub b: bool,
    pub message: bool,
    pub time: bool,
}

/// `None` for a step that does not exist.
pub fn uses(step: u32) -> Option<Uses> {
    let none = Uses::default();
    Some(match step {
        1 | 2 => Uses { a: true, b: true, ..none },
        3 | 10 => Uses { message: true, ..none },
        4..=6 => Uses { run: true, message: true, ..none },
        7 => Uses { time: true, ..none },
        8 => Uses { b: true, ..none },
        9 => Uses { run: true, ..none },
        _ => return None,
    })
}

/// The fields of a TM record.
#[derive(Clone, Copy, Debug, PartialEq, Eq)]
pub struct TermFields {
    pub kind: u32,
    pub left: u32,
    pub right: u32,
}

/// The fields of an ST record.
#[derive(Clone, Copy, Debug, PartialEq, Eq)]
pub struct StepFields {
    pub step: u32,
    pub run: u32,
    pub a: u32,
    pub b: u32,
    pub message: u32,
    pub time: u32,
}

impl TermFields {
    /// In a realm of so many principals, here and below.
    pub fn check(&self, principals: u8) -> Result<(), Refusal> {
        if self.kind > MAX_KIND {
            return Err(Refusal::UnknownOperation);
        }
        let uses_right = !matches!(self.kind, 0 | 2 | 3 | 4);
        if !uses_right && self.right != 0 {
            return Err(Refusal::UnusedField);
        }
        match self.kind {
            0 | 3 => drop(below(principals, self.left)?),
            2 | 4 => drop(nonce_or_key(self.left)?),
            _ => {}
        }
        if self.left > u32::from(u16::MAX) || self.right > u32::from(u16::MAX) {
            return Err(Refusal::BadReference);
        }
        Ok(())
    }
}

impl StepFields {
    /// Gives which fields the step uses.
    pub fn check(&self, principals: u8) -> Result<Uses, Refusal> {
        let uses = uses(self.step).ok_or(Refusal::UnknownOperation)?;
        let unused_field_set = !uses.run && self.run != 0
            || !uses.a && self.a != 0
            || !uses.b && self.b != 0
            || !uses.message && self.message != 0
            || !uses.time && self.time != 0;
        if unused_field_set {
            return Err(Refusal::UnusedField);
        }
        // A field that is not used is 0 here, which is in every range.
        below(principals, self.a)?;
        below(principals, self.b)?;
        let too_wide = self.run > u32::from(u8::MAX) || self.message > u32::from(u16::MAX);
        let opens_for_two = matches!(self.step, 1 | 2);
        let barred = self.a == 0 || self.b == 0 || self.a == self.b;
        if too_wide || opens_for_two && barred {
            return Err(Refusal::BadReference);
        }
        Ok(uses)
    }
}

pub fn nonce_or_key(number: u32) -> Result<u8, Refusal> {
    below(MAX_NONCE_OR_KEY + 1, number)
}

/// A number below the limit.
pub fn below(limit: u8, number: u32) -> Result<u8, Refusal> {
    if number < u32::from(limit) {
        Ok(number as u8)
    } else {
        Err(Refusal::BadReference)
    }
}

impl From<&TermRecord> for TermFields {
    fn from(record: &TermRecord) -> TermFields {
        let (left, right) = (record.left.into(), record.right.into());
        TermFields { kind: record.kind.into(), left, right }
    }
}

impl From<&StepRecord> for StepFields {
    fn from(record: &StepRecord) -> StepFields {
        StepFields {
            step: record.step.into(),
            run: record.run.into(),
            a: record.a.into(),
            b: record.b.into(),
            message: record.message.into(),
            time: record.time,
        }
    }
}
