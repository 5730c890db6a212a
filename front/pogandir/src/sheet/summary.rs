//! What stands above the table: how the records were answered, and the realm.

use std::collections::BTreeMap;

use super::html::{escape, plural};
use super::rows::Row;
use crate::listed::Listed;
use crate::vocabulary::Refusal;
use crate::walk::{Acceptance, Walk};

/// Records that are linked to, of those with the same refusal.
const LINKS: usize = 12;

#[derive(Default)]
pub struct Summary {
    pub records: usize,
    pub refused: BTreeMap<u8, Vec<usize>>,
    pub matched: Vec<usize>,
    pub not_covered: Vec<(usize, String)>,
}

impl Summary {
    pub fn of(rows: &[Row]) -> Summary {
        let mut summary = Summary { records: rows.len(), ..Summary::default() };
        for row in rows {
            if let Some(refusal) = row.refused {
                summary.refused.entry(refusal).or_default().push(row.record);
            }
            match &row.acceptance {
                Some(Acceptance::Matched(_)) => summary.matched.push(row.record),
                Some(Acceptance::NotCovered(why)) => {
                    summary.not_covered.push((row.record, why.clone()))
                }
                None => {}
            }
        }
        summary
    }

    fn refusals(&self) -> usize {
        self.refused.values().map(Vec::len).sum()
    }
}

fn links(records: &[usize]) -> String {
    let link = |record: &usize| format!("<a href=\"#record-{record}\">{record}</a>");
    let mut links: Vec<String> = records.iter().take(LINKS).map(link).collect();
    if records.len() > LINKS {
        links.push(format!("{} more", records.len() - LINKS));
    }
    format!("{} {}", if records.len() == 1 { "record" } else { "records" }, links.join(", "))
}

/// The counts, then a line for each refusal's number and each acceptance that is
/// not covered.
pub fn counts(listed: &Listed, rows: &[Row]) -> String {
    let summary = Summary::of(rows);
    let refusals = summary.refusals();
    let mut html = format!(
        "<p class=\"counts\"><b>{}</b>: {}, {}. {}{}</p>\n",
        plural(summary.records, "record"),
        counted(summary.records - refusals, "accepted", "is-ok"),
        counted(refusals, "refused", "is-refused"),
        acceptances(&summary),
        end(listed),
    );
    let mut lines: Vec<String> = summary.not_covered.iter().map(not_covered).collect();
    lines.extend(summary.refused.iter().map(refused));
    if !lines.is_empty() {
        html.push_str(&format!("<ul class=\"notes\">\n{}</ul>\n", lines.concat()));
    }
    html
}

/// A count, with its icon if it is of some.
fn counted(count: usize, what: &str, class: &str) -> String {
    match count {
        0 => format!("0 {what}"),
        _ => format!("<span class=\"{class}\">{count} {what}</span>"),
    }
}

fn acceptances(summary: &Summary) -> String {
    let (matched, open) = (summary.matched.len(), summary.not_covered.len());
    match (matched + open, open) {
        (0, _) => "No acceptance.".to_string(),
        (1, 0) => "1 acceptance, which has its one initiator run.".to_string(),
        (all, 0) => format!("{all} acceptances, each with its one initiator run."),
        (all, _) => format!(
            "{}: {matched} matched, <span class=\"is-warning\">{open} not covered</span>.",
            plural(all, "acceptance")
        ),
    }
}

/// The last line of the listing, in words.
fn end(listed: &Listed) -> String {
    let Some(walk) = &listed.walk else { return String::new() };
    let tables = &walk.tables;
    format!(
        " At the end: {}, {} on the wire, {} in the replay cache, clock {}.",
        plural(tables.realm.runs, "run"),
        plural(tables.marks() as usize, "term"),
        if tables.realm.entries == 1 {
            "1 entry".to_string()
        } else {
            format!("{} entries", tables.realm.entries)
        },
        tables.realm.clock
    )
}

fn not_covered((record, why): &(usize, String)) -> String {
    format!(
        "<li class=\"warning\"><b class=\"is-warning\">not covered</b> {}: no initiator run is \
         promised, as {}</li>\n",
        links(&[*record]),
        escape(why)
    )
}

fn refused((refusal, records): (&u8, &Vec<usize>)) -> String {
    format!(
        "<li><b class=\"is-refused\">refused {refusal}</b> {}: {}</li>\n",
        links(records),
        escape(&Refusal::told(*refusal))
    )
}

/// The header's values.
pub fn realm(walk: &Walk) -> String {
    let header = &walk.header;
    let mark = crate::record::Record::of_header(header).map_or("", |record| record.mark.letters);
    let principals: Vec<String> = (0..header.n).map(|number| principal(walk, number)).collect();
    format!(
        "<dl class=\"realm\">\n<div><dt>Principals</dt><dd>{}</dd></div>\n\
         <div><dt>Ticket life Ls</dt><dd>{}</dd></div>\n\
         <div><dt>Authenticator life La</dt><dd>{}</dd></div>\n\
         <div><dt>Header</dt><dd>{mark}</dd></div>\n</dl>\n",
        principals.join(" "),
        header.ticket_life,
        header.authenticator_life,
    )
}

fn principal(walk: &Walk, number: u8) -> String {
    let name = escape(&walk.names.principal(number));
    let (class, bad) = if walk.is_bad(number) { (" is-warning", ", bad") } else { ("", "") };
    format!("<span class=\"principal{class}\"><i>{number}</i> {name}{bad}</span>")
}
