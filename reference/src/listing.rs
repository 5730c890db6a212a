//! From a walk file to its listing: one line a record, and a last line that
//! sums up the tables.

use std::fmt::Write;

use crate::file::{read_header, read_record};
use crate::marks::letters;
use crate::realm::{Answer, Realm};
use crate::refusal::Refusal;

/// The listing of any byte string. Every line ends in a newline.
pub fn listing(file: &[u8]) -> String {
    let (header, mut rest) = match read_header(file) {
        Ok(read) => read,
        Err(refusal) => return refused(0, "file", refusal),
    };
    let mut realm = Realm::new(header.settings());
    let mut lines = format!("0 {} ok\n", letters(header.mark));
    let mut number = 0;
    while let Some(read) = read_record(rest) {
        number += 1;
        match read {
            Ok((record, after)) => {
                rest = after;
                lines += &match realm.apply(&record) {
                    Ok(answer) => accepted(number, record.mark(), answer),
                    Err(refusal) => refused(number, record.mark(), refusal),
                };
            }
            Err(refusal) => {
                lines += &refused(number, "file", refusal);
                break;
            }
        }
    }
    lines + &end(&realm)
}

fn accepted(number: usize, mark: &str, answer: Answer) -> String {
    match answer {
        Answer::Old(term) => format!("{number} {mark} {term} old\n"),
        Answer::New(term) => format!("{number} {mark} {term} new\n"),
        Answer::Step { run: Some(run), added } => format!("{number} {mark} ok {run} +{added}\n"),
        Answer::Step { run: None, added } => format!("{number} {mark} ok - +{added}\n"),
    }
}

fn refused(number: usize, mark: &str, refusal: Refusal) -> String {
    format!("{number} {mark} refused {}\n", refusal.number())
}

fn end(realm: &Realm) -> String {
    let mut line = String::new();
    let _ = write!(line, "end runs {} wire {}", realm.runs.len(), realm.wire.len());
    let _ = writeln!(line, " cache {} clock {}", realm.cache.len(), realm.clock);
    line
}
