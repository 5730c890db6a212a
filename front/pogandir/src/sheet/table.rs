//! The table: a row a record. What a record left as it was is folded, and the script
//! fills such a fold from the rows above when it is opened.

use super::html::{code, escape, plural};
use super::rows::{Change, EntryRow, Kind, Noted, Row};
use crate::walk::Acceptance;

const HEAD: &str = "<table class=\"rows\">\n<thead><tr><th scope=\"col\">No.</th>\
    <th scope=\"col\">Clock</th><th scope=\"col\">What happens</th><th scope=\"col\">Answer</th>\
    <th scope=\"col\">A listener</th><th scope=\"col\">Replay cache</th>\
    <th scope=\"col\">Runs</th></tr></thead>\n<tbody>\n";

const FILTERS: &str = "<p class=\"filters\"><label><input type=\"checkbox\" id=\"hide-terms\"> \
    hide the records that add terms</label> <label><input type=\"checkbox\" id=\"only-noted\"> \
    only refused records and acceptances</label></p>\n";

/// Messages that a listener can make from here on, before the rest is folded.
const SHOWN: usize = 4;

pub fn table(rows: &[Row]) -> String {
    let rows: String = rows.iter().map(row).collect();
    format!("{FILTERS}{HEAD}{rows}</tbody>\n</table>\n")
}

fn class(row: &Row) -> &'static str {
    match (row.kind, row.refused, &row.acceptance) {
        (Kind::Term, Some(_), _) => "term refused",
        (Kind::Term, None, _) => "term",
        (_, Some(_), _) => "step refused",
        (_, None, Some(Acceptance::NotCovered(_))) => "step warned",
        (_, None, Some(Acceptance::Matched(_))) => "step matched",
        (_, None, None) => "step",
    }
}

fn row(row: &Row) -> String {
    let step = match row.kind {
        Kind::Step(step) => format!(" data-step=\"{step}\""),
        _ => String::new(),
    };
    let clock = row.clock.map_or(String::new(), |clock| clock.to_string());
    format!(
        "<tr id=\"record-{0}\" class=\"{1}\"{step}><th scope=\"row\">{0}</th>\
         <td class=\"clock\">{clock}</td><td>{2}</td><td>{3}</td><td>{4}</td><td>{5}</td>\
         <td>{6}</td></tr>\n",
        row.record,
        class(row),
        happens(row),
        answer(row),
        listener(row),
        cache(row),
        runs(row),
    )
}

fn happens(row: &Row) -> String {
    let message = row.message.as_ref();
    if row.kind == Kind::Term {
        let shown = message.map_or(String::new(), |noted| format!(" {}", code(noted)));
        return format!("<span class=\"call\">{}</span>{shown}", escape(&row.call));
    }
    let mut html = format!("<div class=\"call\">{}</div>", escape(&row.call));
    if let Some(noted) = message {
        let term = noted.term.map_or(String::new(), |term| format!(" data-takes=\"{term}\""));
        html.push_str(&format!("<div class=\"takes\"{term}>{}</div>", code(noted)));
    }
    for sent in &row.sent {
        html.push_str(&format!(
            "<div class=\"sends\" data-wire=\"{}\" data-run=\"{}\">sends <span>{}</span>{} {}</div>",
            sent.message.term.unwrap_or_default(),
            sent.run,
            sent.name,
            if sent.fresh { "" } else { " again" },
            code(&sent.message),
        ));
    }
    html
}

fn answer(row: &Row) -> String {
    let mark = if row.kind == Kind::File { "<span class=\"mark\">file</span> " } else { "" };
    let class = if row.refused.is_some() { "answer is-refused" } else { "answer" };
    let mut html = format!("{mark}<b class=\"{class}\">{}</b>", escape(&row.answer));
    let mut line = |class: &str, text: &str| {
        if !text.is_empty() {
            html.push_str(&format!("<div class=\"{class}\">{}</div>", escape(text)));
        }
    };
    match (&row.acceptance, row.refused) {
        (None, None) if row.kind == Kind::Term => {}
        (None, None) if row.reason.is_empty() => line("meaning", &row.meaning),
        (None, None) => line("meaning", &format!("{}; {}", row.meaning, row.reason)),
        (None, Some(_)) => {
            line("meaning", &row.meaning);
            line("reason", &row.reason);
        }
        (Some(Acceptance::Matched(_)), _) => {
            line("meaning", &row.meaning);
            line("reason is-ok", &row.reason);
        }
        (Some(Acceptance::NotCovered(_)), _) => {
            line("meaning", &row.meaning);
            line("reason is-warning", &format!("not covered: {}", row.reason));
        }
    }
    html
}

fn listener(row: &Row) -> String {
    let listener = &row.listener;
    if row.kind == Kind::Term {
        let word = |derives| if derives { "can derive it" } else { "cannot derive it" };
        let word = listener.derives.map(word).unwrap_or_default();
        return format!("<span class=\"quiet\">{word}</span>");
    }
    let mut html = gained("learns", "learns", &listener.learns);
    html.push_str(&gained("opens", "opens", &listener.opens));
    let (first, rest) = listener.makes.split_at(listener.makes.len().min(SHOWN));
    html.push_str(&gained("makes", "can now make", first));
    if !rest.is_empty() {
        let more = gained("makes", "can now make", rest);
        html.push_str(&format!(
            "<details><summary>and {} more</summary>{more}</details>",
            rest.len()
        ));
    }
    if listener.wire > 0 {
        let count = plural(listener.wire as usize, "message");
        html.push_str(&fold("wire", &format!("holds {count}")));
    }
    html
}

fn gained(class: &str, word: &str, terms: &[Noted]) -> String {
    let item =
        |noted: &Noted| format!("<div class=\"{class}\"><b>{word}</b> {}</div>", code(noted));
    terms.iter().map(item).collect()
}

/// A fold that the script fills.
fn fold(of: &str, summary: &str) -> String {
    format!(
        "<details data-fold=\"{of}\"><summary>{summary}</summary>\
         <div>as in the rows above</div></details>"
    )
}

fn unchanged(of: &str, count: usize) -> String {
    match count {
        0 => String::new(),
        _ => fold(of, &format!("{count} unchanged")),
    }
}

fn cache(row: &Row) -> String {
    if row.kind == Kind::Term {
        return String::new();
    }
    let changed = row.entries.iter().filter(|entry| entry.change != Change::Kept);
    let shown: String = changed.map(entry).collect();
    let kept = row.entries.iter().filter(|entry| entry.change == Change::Kept).count();
    format!("{shown}{}", unchanged("cache", kept))
}

fn entry(row: &EntryRow) -> String {
    let (tag, class, word) = match row.change {
        Change::Forgotten => ("del", "gone", "forgotten"),
        Change::Over => ("span", "over", "life over"),
        _ => ("ins", "new", "remembered"),
    };
    let key = format!("{}-{}-{}", row.entry.b, row.entry.k, row.entry.ta);
    format!(
        "<div class=\"entry\" data-entry=\"{key}\"><{tag} class=\"{class}\">{}</{tag}> \
         <i>{word}</i></div>",
        tight(&row.text)
    )
}

/// Escaped text in which a time stays beside its name.
fn tight(text: &str) -> String {
    let space = "\u{a0}";
    escape(text).replace("Ts ", &format!("Ts{space}")).replace("Ta ", &format!("Ta{space}"))
}

fn runs(row: &Row) -> String {
    if row.kind == Kind::Term {
        return String::new();
    }
    let run = |run: &super::rows::RunRow| {
        format!(
            "<div class=\"run\" data-of=\"{}\"><ins class=\"new\">{}</ins> {}</div>",
            run.run,
            escape(&run.name),
            tight(&run.text)
        )
    };
    let changed: String = row.runs.iter().map(run).collect();
    format!("{changed}{}", unchanged("runs", row.unchanged_runs))
}
