//! A record as a mark and the numbers behind it: to bytes, from bytes, and to what
//! the engine is asked.

use engine::{Call, Header};

use crate::vocabulary::{Mark, Use, MARKS};

#[derive(Clone, Debug, PartialEq, Eq)]
pub struct Record {
    pub mark: &'static Mark,
    /// A number for each field of the mark.
    pub values: Vec<u32>,
}

impl Record {
    /// The whole record that the bytes begin with, if they do with one.
    pub fn first_of(bytes: &[u8]) -> Option<Record> {
        let mark = MARKS.iter().find(|mark| bytes.starts_with(mark.letters.as_bytes()))?;
        let mut rest = bytes.get(mark.letters.len()..mark.record_bytes())?;
        let mut values = Vec::new();
        for field in mark.fields {
            let (number, after) = rest.split_at(field.bytes);
            values.push(number.iter().fold(0, |value, &byte| value << 8 | u32::from(byte)));
            rest = after;
        }
        Some(Record { mark, values })
    }

    pub fn bytes(&self) -> Vec<u8> {
        let mut bytes = self.mark.letters.as_bytes().to_vec();
        for (field, value) in self.mark.fields.iter().zip(&self.values) {
            bytes.extend(&value.to_be_bytes()[4 - field.bytes..]);
        }
        bytes
    }

    pub fn value(&self, name: &str) -> u32 {
        let place = self.mark.fields.iter().position(|field| field.name == name);
        place.map_or(0, |place| self.values[place])
    }

    pub fn header(&self) -> Option<Header> {
        self.mark.is_header().then(|| Header {
            mark: self.mark.number(),
            n: self.value("n") as u8,
            flags: self.value("flags"),
            ticket_life: self.value("Ls"),
            authenticator_life: self.value("La"),
        })
    }

    pub fn call(&self) -> Option<Call> {
        match self.mark.purpose {
            Use::Header { .. } => None,
            Use::Term => Some(Call::Term {
                kind: self.value("kind") as u8,
                l: self.value("L") as u16,
                r: self.value("R") as u16,
            }),
            Use::Step => Some(Call::Step {
                step: self.value("step") as u8,
                run: self.value("run") as u8,
                a: self.value("a") as u8,
                b: self.value("b") as u8,
                m: self.value("m") as u16,
                t: self.value("t"),
            }),
        }
    }

    /// The record that asks for a call.
    pub fn of_call(call: Call) -> Record {
        let (letters, values) = match call {
            Call::Term { kind, l, r } => ("TM", vec![kind.into(), l.into(), r.into()]),
            Call::Step { step, run, a, b, m, t } => {
                ("ST", vec![step.into(), run.into(), a.into(), b.into(), m.into(), t])
            }
        };
        Record { mark: Mark::named(letters).expect("the mark is in the table"), values }
    }

    /// The record of a header's values.
    pub fn of_header(header: &Header) -> Option<Record> {
        let mark = MARKS.iter().find(|mark| mark.is_header() && mark.number() == header.mark)?;
        let Header { n, flags, ticket_life, authenticator_life, .. } = *header;
        Some(Record { mark, values: vec![n.into(), flags, ticket_life, authenticator_life] })
    }
}

/// The whole records that the bytes begin with, and the bytes behind them.
pub fn split(bytes: &[u8]) -> (Vec<Record>, &[u8]) {
    let mut records = Vec::new();
    let mut rest = bytes;
    while let Some(record) = Record::first_of(rest) {
        rest = &rest[record.mark.record_bytes()..];
        records.push(record);
    }
    (records, rest)
}
