//! All that is wrong with a record handed to the writer, not only the first:
//! a second reading of the refusals 3 to 6 on a record's own fields.

use reference::writing::{RECORD_WORDS, STEP_MARK, TERM_MARK};

/// A field of a record: its value, its width in the file, and the first number
/// that is out of range, 0 for a field that is not used.
pub struct Field {
    pub name: &'static str,
    pub value: u32,
    pub bits: u32,
    pub first: u64,
}

impl Field {
    pub fn is_used(&self) -> bool {
        self.first != 0
    }

    /// No number is too high for the field but one that is too wide.
    pub fn takes_all(&self) -> bool {
        self.first == 1 << self.bits
    }

    /// The part of the value that would be left in the file.
    fn low(&self) -> u64 {
        u64::from(self.value) & ((1 << self.bits) - 1)
    }

    fn fault(&self) -> Option<(u8, String)> {
        let (name, value) = (self.name, u64::from(self.value));
        if !self.is_used() {
            let how = if self.low() == 0 { format!("{name}, its low bits 0") } else { name.into() };
            return (value != 0).then_some((5, how));
        }
        let how = match value {
            _ if value < self.first => return None,
            _ if value == self.first => format!("{name} the first"),
            _ if self.low() < self.first => format!("{name}, its low bits in range"),
            _ => format!("{name} far"),
        };
        Some((6, how))
    }
}

/// The fields of a TM record, by document 01's table of kinds.
pub fn term_fields(n: u8, words: &[u32]) -> Vec<Field> {
    let (left, right) = match words[1] {
        0 | 3 => (n.into(), 0),
        2 | 4 => (96, 0),
        _ => (65_536, 65_536),
    };
    let field = |name, value, first| Field { name, value, bits: 16, first };
    vec![field("L", words[2], left), field("R", words[3], right)]
}

/// The fields of an ST record, by document 01's column "uses".
pub fn step_fields(n: u8, words: &[u32]) -> Vec<Field> {
    let used: &[&str] = match words[1] {
        1 | 2 => &["a", "b"],
        3 | 10 => &["m"],
        4..=6 => &["run", "m"],
        7 => &["t"],
        8 => &["b"],
        _ => &["run"],
    };
    let fields = [
        ("run", 8, 256),
        ("a", 8, n.into()),
        ("b", 8, n.into()),
        ("m", 16, 65_536),
        ("t", 32, 1 << 32),
    ];
    let field = |((name, bits, first), value): ((&'static str, u32, u64), &u32)| Field {
        name,
        value: *value,
        bits,
        first: if used.contains(&name) { first } else { 0 },
    };
    fields.into_iter().zip(&words[2..]).map(field).collect()
}

/// What a record is called in the table, its fields, and its faults.
pub struct Reading {
    pub subject: String,
    pub fields: Vec<Field>,
    pub faults: Vec<(u8, String)>,
}

impl Reading {
    pub fn of(n: u8, words: &[u32]) -> Reading {
        let operation = words.get(1).copied().unwrap_or(0);
        match words[0] {
            _ if words.len() < RECORD_WORDS => {
                broken(format!("cut short to {} words", words.len()))
            }
            TERM_MARK if operation > 6 => unknown("TM other", unknown_kind(operation)),
            TERM_MARK => known(format!("TM {operation}"), term_fields(n, words)),
            STEP_MARK if !(1..=10).contains(&operation) => {
                unknown("step other", unknown_step(operation))
            }
            STEP_MARK => {
                let mut reading = known(format!("step {operation}"), step_fields(n, words));
                reading.bar_two(words);
                reading
            }
            mark if [TERM_MARK, STEP_MARK].contains(&(mark & 0xffff)) => {
                broken("a wide mark".into())
            }
            _ => broken("another mark".into()),
        }
    }

    /// The refusal that the record gets.
    pub fn refusal(&self) -> Option<u8> {
        self.faults.iter().map(|(number, _)| *number).min()
    }

    /// In which way it gets it, if there is one way only.
    pub fn way(&self) -> Option<&str> {
        let least = self.refusal()?;
        let mut ways = self.faults.iter().filter(|(number, _)| *number == least);
        let (_, way) = ways.next()?;
        ways.next().is_none().then_some(way)
    }

    /// "in steps 1 and 2, a or b is 0, or a equals b".
    fn bar_two(&mut self, words: &[u32]) {
        let (step, a, b) = (words[1], words[3], words[4]);
        let barred = [("a is 0", a == 0), ("b is 0", b == 0), ("a equals b", a == b)];
        for (how, is) in barred {
            if step <= 2 && is {
                self.faults.push((6, how.into()));
            }
        }
    }
}

fn known(subject: String, fields: Vec<Field>) -> Reading {
    let faults = fields.iter().filter_map(Field::fault).collect();
    Reading { subject, fields, faults }
}

fn unknown(subject: &str, how: &str) -> Reading {
    Reading { subject: subject.into(), fields: Vec::new(), faults: vec![(4, how.into())] }
}

fn broken(how: String) -> Reading {
    Reading { subject: "record".into(), fields: Vec::new(), faults: vec![(3, how)] }
}

fn unknown_kind(kind: u32) -> &'static str {
    match kind {
        7 => "7",
        256.. if kind & 0xff <= 6 => "its low byte a kind",
        _ => "far",
    }
}

fn unknown_step(step: u32) -> &'static str {
    match step {
        0 => "0",
        11 => "11",
        256.. if (1..=10).contains(&(step & 0xff)) => "its low byte a step",
        _ => "far",
    }
}
