//! The table of terms below the rows, and the same table for the script, which
//! unfolds what the notation has cut.

use engine::is_marked;

use super::html::{code, plural};
use super::rows::Noted;
use crate::json;
use crate::notation::{DEPTH, PARTS};
use crate::vocabulary::Kind;
use crate::walk::Walk;

pub fn section(walk: &Walk) -> String {
    let count = walk.tables.realm.terms;
    let rows: String = (0..count as u16).map(|term| row(walk, term)).collect();
    format!(
        "<details class=\"part\" id=\"terms\"><summary>The table of terms, {}</summary>\n\
         <table class=\"terms\">\n<thead><tr><th scope=\"col\">Term</th><th scope=\"col\">Kind</th>\
         <th scope=\"col\">Notation</th><th scope=\"col\">On the wire</th>\
         <th scope=\"col\">Derivable</th></tr></thead>\n<tbody>\n{rows}</tbody>\n</table></details>\n",
        plural(count, "term")
    )
}

fn row(walk: &Walk, number: u16) -> String {
    let kind = walk.tables.term(number).and_then(|term| Kind::of(term.kind.into()));
    let known = walk.taken.last().is_some_and(|last| is_marked(&last.known, number));
    let wire = walk.tables.is_on_wire(number);
    format!(
        "<tr id=\"term-{number}\"><th scope=\"row\">{number}</th><td>{}</td><td>{}</td>\
         <td>{}</td><td>{}</td></tr>\n",
        kind.map_or("", |kind| kind.name),
        code(&Noted::thin(walk, number)),
        if wire { "on the wire" } else { "" },
        if known { "derivable" } else { "" },
    )
}

/// Three numbers a term, the principals' names, and how much is shown at a time.
pub fn data(walk: &Walk) -> String {
    let terms = (0..walk.tables.realm.terms as u16).filter_map(|term| walk.tables.term(term));
    let numbers = terms.map(|term| format!("{},{},{}", term.kind, term.l, term.r));
    let numbers = numbers.collect::<Vec<_>>().join(",");
    let names = (0..walk.header.n).map(|number| json::string(&walk.names.principal(number)));
    let fields = [
        ("terms", format!("[{numbers}]")),
        ("principals", json::array(names)),
        ("depth", DEPTH.to_string()),
        ("parts", PARTS.to_string()),
    ];
    // In a script element only "<" could end the text early.
    let text = json::object(fields).replace('<', "\\u003c");
    format!("<script type=\"application/json\" id=\"data\">{text}</script>\n")
}
