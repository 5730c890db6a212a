//! The text form with numbers: one record a line, `ST 5 run=2 m=17`, fields left
//! out being 0; a `raw` line holds bytes that are no whole record. Every byte
//! string has a text in this form, and reading it back gives the same bytes.

use crate::record::{split, Record};
use crate::tokens::{number, wrong, Cursor, Wrong};
use crate::vocabulary::{Field, Kind, Mark, Step, Use};

const RAW: &str = "raw";
const RAW_BYTES_PER_LINE: usize = 16;

/// A line in this form.
#[derive(Clone, Debug, PartialEq, Eq)]
pub enum Plain {
    Record(Record),
    Raw(Vec<u8>),
}

/// Whether a word begins a line in this form.
pub fn begins(word: &str) -> bool {
    word.eq_ignore_ascii_case(RAW) || Mark::beginning(word).is_some()
}

/// Reads a line; all that is wrong with it is told.
pub fn read(mut cursor: Cursor) -> Result<Plain, Vec<Wrong>> {
    let word = cursor.advance().expect("a line has a word");
    match Mark::beginning(&word.text) {
        Some(mark) => read_record(mark, cursor).map(Plain::Record),
        None => read_raw(cursor).map(Plain::Raw),
    }
}

fn read_raw(mut cursor: Cursor) -> Result<Vec<u8>, Vec<Wrong>> {
    let mut bytes = Vec::new();
    let mut faults = Vec::new();
    if cursor.is_done() {
        faults.extend(wrong::<()>(cursor.column(), "raw needs at least one byte").err());
    }
    while let Some(token) = cursor.advance() {
        let digits = token.text.len() == 2 && token.text.chars().all(|c| c.is_ascii_hexdigit());
        match u8::from_str_radix(&token.text, 16) {
            Ok(byte) if digits => bytes.push(byte),
            _ => {
                let message = format!("'{}' is no byte of two hexadecimal digits", token.text);
                faults.push(Wrong { column: token.column, message });
            }
        }
    }
    if faults.is_empty() {
        Ok(bytes)
    } else {
        Err(faults)
    }
}

fn read_record(mark: &'static Mark, mut cursor: Cursor) -> Result<Record, Vec<Wrong>> {
    let mut values: Vec<Option<u32>> = vec![None; mark.fields.len()];
    let mut faults = Vec::new();
    if let Some(leading) = mark.leading() {
        match read_leading(mark, leading, &mut cursor) {
            Ok(value) => values[0] = Some(value),
            Err(fault) => faults.push(fault),
        }
    }
    while !cursor.is_done() {
        if let Err(fault) = read_field(mark, &mut cursor, &mut values) {
            faults.push(fault);
        }
    }
    if !faults.is_empty() {
        return Err(faults);
    }
    Ok(Record { mark, values: values.into_iter().map(Option::unwrap_or_default).collect() })
}

fn read_leading(mark: &Mark, leading: &str, cursor: &mut Cursor) -> Result<u32, Wrong> {
    if cursor.peek().is_none() || cursor.second() == Some("=") {
        return wrong(cursor.column(), format!("{} needs its {leading} first", mark.letters));
    }
    let token = cursor.advance().expect("there is one");
    read_number(&mark.fields[0], &token.text, token.column)
}

fn read_field(mark: &Mark, cursor: &mut Cursor, values: &mut [Option<u32>]) -> Result<(), Wrong> {
    let token = cursor.advance().expect("the line goes on");
    if !cursor.takes("=") {
        return wrong(token.column, format!("'{}' is not of the form field=number", token.text));
    }
    // the number is taken even where the field is wrong, so that reading goes on behind it
    let column = cursor.column();
    let value = if cursor.second() == Some("=") { None } else { cursor.advance() };
    let named = |field: &&Field| field.name.eq_ignore_ascii_case(&token.text);
    let place = mark.fields.iter().position(|field| named(&field));
    let Some(place) = place.filter(|&place| mark.leading() != Some(mark.fields[place].name)) else {
        return wrong(
            token.column,
            format!("{} has no field '{}'; it has {}", mark.letters, token.text, fields(mark)),
        );
    };
    let field = &mark.fields[place];
    if values[place].is_some() {
        return wrong(token.column, format!("field '{}' stands twice", field.name));
    }
    let (text, column) = value.map_or(("", column), |value| (value.text.as_str(), value.column));
    values[place] = Some(read_number(field, text, column)?);
    Ok(())
}

fn fields(mark: &Mark) -> String {
    let named = mark.fields.iter().filter(|field| mark.leading() != Some(field.name));
    named.map(|field| field.name).collect::<Vec<_>>().join(", ")
}

fn read_number(field: &Field, text: &str, column: usize) -> Result<u32, Wrong> {
    let name = field.name;
    match number(text) {
        None => wrong(
            column,
            format!("{name}: '{text}' is no number; 0 to {} is allowed", field.most()),
        ),
        Some(value) if value > u128::from(field.most()) => {
            let plural = if field.bytes > 1 { "s" } else { "" };
            let (bytes, most) = (field.bytes, field.most());
            wrong(
                column,
                format!(
                    "{name}: {text} does not fit in {bytes} byte{plural}; 0 to {most} is allowed"
                ),
            )
        }
        Some(value) => Ok(value as u32),
    }
}

/// The line of a record.
pub fn line(record: &Record) -> String {
    let mark = record.mark;
    let mut words = vec![mark.letters.to_string()];
    if mark.leading().is_some() {
        words.push(record.values[0].to_string());
    }
    for (field, &value) in mark.fields.iter().zip(&record.values) {
        if mark.leading() != Some(field.name) && is_shown(record, field, value) {
            words.push(format!("{}={}", field.name, shown(field, value)));
        }
    }
    words.join(" ")
}

/// A field is shown if it is used, or not 0.
fn is_shown(record: &Record, field: &Field, value: u32) -> bool {
    let number = record.values[0];
    let uses = match record.mark.purpose {
        Use::Header { .. } => return true,
        Use::Term => Kind::of(number).map(|kind| kind.uses),
        Use::Step => Step::of(number).map(|step| step.uses),
    };
    value != 0 || uses.is_some_and(|uses| uses.contains(&field.name))
}

fn shown(field: &Field, value: u32) -> String {
    if field.name == "flags" && value != 0 {
        return format!("0x{value:0width$x}", width = 2 * field.bytes);
    }
    value.to_string()
}

/// The lines of any byte string: records as far as they go, then raw bytes.
pub fn lines(bytes: &[u8]) -> Vec<String> {
    let (records, rest) = split(bytes);
    let mut lines: Vec<String> = records.iter().map(line).collect();
    for part in rest.chunks(RAW_BYTES_PER_LINE) {
        let bytes: Vec<String> = part.iter().map(|byte| format!("{byte:02x}")).collect();
        lines.push(format!("{RAW} {}", bytes.join(" ")));
    }
    lines
}
