//! A walk file beside its listing. The listing is the engine's, of the whole file;
//! the walk is the same records, call by call, with the tables after each.

use crate::answers;
use crate::notation::Names;
use crate::record::{split, Record};
use crate::vocabulary::{REFUSED_FILE, REFUSED_HEADER};
use crate::walk::Walk;

#[derive(Clone, Debug)]
pub struct Listed {
    /// What the walk is called: its file's name.
    pub name: String,
    pub bytes: Vec<u8>,
    /// The lines of the listing: one a record, then the line `end`.
    pub lines: Vec<String>,
    /// None where the header was refused.
    pub walk: Option<Walk>,
}

impl Listed {
    pub fn of_bytes(name: &str, bytes: Vec<u8>, names: Names) -> Listed {
        let walk = walked(&bytes, names);
        Listed::of_walk(name, bytes, walk)
    }

    /// Of a walk that was made of these bytes.
    pub fn of_walk(name: &str, bytes: Vec<u8>, walk: Option<Walk>) -> Listed {
        let listing = String::from_utf8(engine::listing(&bytes)).expect("a listing is ASCII");
        let lines: Vec<String> = listing.lines().map(str::to_string).collect();
        let listed = Listed { name: name.to_string(), bytes, lines, walk };
        listed.compare();
        listed
    }

    /// The refusal that ended the reading, and its record.
    pub fn ended(&self) -> Option<(usize, u8)> {
        let last = self.lines.iter().find(|line| line.contains(" file refused "))?;
        let mut words = last.split(' ');
        let record = words.next()?.parse().ok()?;
        Some((record, words.next_back()?.parse().ok()?))
    }

    /// The calls and the listing are proved to agree; a difference would be a fault
    /// of this program.
    fn compare(&self) {
        let Some(walk) = &self.walk else {
            let refused = matches!(self.ended(), Some((0, REFUSED_FILE | REFUSED_HEADER)));
            assert!(refused, "only a refused header has no walk");
            return;
        };
        for (record, taken) in walk.taken.iter().enumerate() {
            let answer = answers::listed(taken.answer);
            let line = &self.lines[record + 1];
            assert!(line.ends_with(&format!(" {answer}")), "{line} is not {answer}");
        }
        let ended = usize::from(self.ended().is_some());
        assert_eq!(self.lines.len(), 1 + walk.taken.len() + ended + 1, "a line a record, and one");
        let realm = &walk.tables.realm;
        let (runs, wire, cache) = (realm.runs, walk.tables.marks(), realm.entries);
        let end = format!("end runs {runs} wire {wire} cache {cache} clock {}", realm.clock);
        assert_eq!(self.lines.last(), Some(&end));
    }
}

/// The walk of a file, as far as it is read.
fn walked(bytes: &[u8], names: Names) -> Option<Walk> {
    let (records, _) = split(bytes);
    let header = records.first().and_then(Record::header)?;
    if bytes.len() > crate::vocabulary::LONGEST_FILE {
        return None;
    }
    let mut walk = Walk::open(header, names).ok()?;
    for call in records[1..].iter().map_while(Record::call) {
        walk.take(call);
    }
    Some(walk)
}
