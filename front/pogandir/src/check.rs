//! Whether a walk does what is expected of it.

use crate::answers;
use crate::ending::Ending;
use crate::expect::ACCEPTED;
use crate::json;
use crate::listed::Listed;
use crate::script::{Script, Told};
use crate::vocabulary::Refusal;

/// A line or record that did something else.
#[derive(Clone, Debug, PartialEq, Eq)]
pub struct Difference {
    /// Of the text, if there is one.
    pub line: Option<usize>,
    pub record: Option<usize>,
    pub expected: String,
    pub got: String,
    pub reason: String,
}

#[derive(Clone, Debug, PartialEq, Eq)]
pub struct Verdict {
    pub name: String,
    /// How many lines or records were looked at.
    pub looked_at: usize,
    pub differences: Vec<Difference>,
}

/// Each line against what it says, or else against being accepted.
pub fn script(script: &Script) -> Verdict {
    let mut differences: Vec<Difference> = script.told.iter().filter_map(difference).collect();
    let mut looked_at = script.told.len();
    if let Some((record, number)) = unread(script) {
        looked_at += 1;
        differences.push(Difference {
            line: None,
            record: Some(record),
            expected: ACCEPTED.shown(),
            got: format!("refused {number}"),
            reason: reasoned(Some(number), ""),
        });
    }
    if let Some(ending) = &script.ending {
        looked_at += 1;
        differences.extend(ending_difference(ending, &script.listed));
    }
    Verdict { name: script.listed.name.clone(), looked_at, differences }
}

/// The refusal that ended the reading, if no line has it: an empty text's, or one
/// inside of raw bytes.
fn unread(script: &Script) -> Option<(usize, u8)> {
    let ended = script.listed.ended()?;
    let has_line = script.told.iter().any(|told| told.record == ended.0);
    (!has_line).then_some(ended)
}

fn difference(told: &Told) -> Option<Difference> {
    let expected = told.expected.unwrap_or(ACCEPTED);
    (!expected.holds(told.outcome)).then(|| Difference {
        line: Some(told.line),
        record: Some(told.record),
        expected: expected.shown(),
        got: told.outcome.shown(),
        reason: reasoned(told.outcome.refusal(), &told.reason),
    })
}

/// A refusal in words, and why it was given.
fn reasoned(refusal: Option<u8>, reason: &str) -> String {
    match refusal.map(Refusal::told) {
        Some(words) if reason.is_empty() || reason == words => words,
        Some(words) => format!("{words}: {reason}"),
        None => reason.to_string(),
    }
}

fn ending_difference(ending: &Ending, listed: &Listed) -> Option<Difference> {
    let last = listed.lines.last().filter(|line| line.starts_with("end ")).cloned();
    let got = last.unwrap_or_else(|| "no such line: reading ended".to_string());
    let words: Vec<&str> = got.split(' ').collect();
    let told = |word: &str| words.iter().position(|other| *other == word);
    let holds = |(word, number): &(String, u32)| {
        told(word).is_some_and(|place| words[place + 1] == number.to_string())
    };
    let differs = !ending.counts.iter().all(holds);
    differs.then(|| Difference {
        line: Some(ending.line),
        record: None,
        expected: ending
            .counts
            .iter()
            .map(|(word, number)| format!("{word} {number}"))
            .collect::<Vec<_>>()
            .join(", "),
        got,
        reason: String::new(),
    })
}

/// Each record of a walk file against being accepted.
pub fn listed(listed: &Listed) -> Verdict {
    let records = listed.lines.iter().filter(|line| !line.starts_with("end "));
    let differences = records.clone().enumerate().filter_map(|(record, line)| {
        let number: u8 = line.split_once(" refused ")?.1.parse().ok()?;
        let taken = record.checked_sub(1).and_then(|place| listed.walk.as_ref()?.taken.get(place));
        Some(Difference {
            line: None,
            record: Some(record),
            expected: ACCEPTED.shown(),
            got: format!("refused {number}"),
            reason: reasoned(Some(number), taken.map_or("", |taken| &taken.reason)),
        })
    });
    Verdict {
        name: listed.name.clone(),
        looked_at: records.clone().count(),
        differences: differences.collect(),
    }
}

impl Difference {
    /// The place, as far as it is known.
    fn place(&self, name: &str) -> String {
        match (self.line, self.record) {
            (Some(line), Some(record)) => format!("{name}:{line}: record {record}"),
            (Some(line), None) => format!("{name}:{line}"),
            (None, Some(record)) => format!("{name}: record {record}"),
            (None, None) => name.to_string(),
        }
    }

    fn json(&self) -> String {
        let number = |number: Option<usize>| number.map_or("null".to_string(), |n| n.to_string());
        json::object([
            ("line", number(self.line)),
            ("record", number(self.record)),
            ("expected", json::string(&self.expected)),
            ("got", json::string(&self.got)),
            ("reason", json::string(&self.reason)),
        ])
    }
}

impl Verdict {
    pub fn holds(&self) -> bool {
        self.differences.is_empty()
    }

    /// A line for each difference, and one that sums up.
    pub fn shown(&self) -> String {
        let Verdict { name, looked_at, differences } = self;
        let mut shown = String::new();
        for difference in differences {
            let Difference { expected, got, reason, .. } = difference;
            shown += &format!("{}: expected {expected}, got {got}", difference.place(name));
            shown += &if reason.is_empty() { "\n".to_string() } else { format!(" ({reason})\n") };
        }
        let good = looked_at - differences.len();
        shown + &format!("{name}: {good} of {looked_at} as expected\n")
    }

    pub fn json_fields(&self) -> Vec<(&'static str, String)> {
        vec![
            ("as_expected", self.holds().to_string()),
            ("looked_at", self.looked_at.to_string()),
            ("differences", json::array(self.differences.iter().map(Difference::json))),
        ]
    }
}

/// The lines of a walk file as text, each with the answer that it got.
pub fn expecting(listed: &Listed, lines: &[String]) -> Vec<String> {
    let answer = |record: usize| -> Option<String> {
        if record == 0 {
            return Some("ok".to_string());
        }
        Some(answers::listed(listed.walk.as_ref()?.taken.get(record - 1)?.answer))
    };
    let ended = listed.ended();
    let expected = |(record, line): (usize, &String)| match ended {
        Some((at, number)) if record == at => format!("{line} => refused {number}"),
        Some((at, _)) if record > at => format!("{line} => any"),
        _ => answer(record).map_or(line.clone(), |answer| format!("{line} => {answer}")),
    };
    let end = listed.lines.last().and_then(|line| line.strip_prefix("end "));
    let end = end.map(|counts| format!("end => {counts}"));
    lines.iter().enumerate().map(expected).chain(end).collect()
}
