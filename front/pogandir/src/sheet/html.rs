//! The page as a whole: what is above the table, the table, what is below it.

use super::rows::{Noted, Row};
use super::{chart, summary, table, terms};
use crate::listed::Listed;
use crate::notation::Piece;

const STYLE: &str = include_str!("style.css");
const SCRIPT: &str = include_str!("script.js");

const LEGEND: &str = "<b>Notation</b> <code>[p, q, r]</code> p with the pair of q and r; \
    <code>{m}k</code> m encrypted under k; <code>K(p)</code> long-term key of p; \
    <code>k1</code> session key of run 1; <code>N0</code> nonce of run 0; \
    <code>t5</code> time 5; <code>…17</code> term 17, not shown in full. \
    <span class=\"new\">Marked</span> is what the record changed.";

/// Text with nothing left in it that HTML would read.
pub fn escape(text: &str) -> String {
    let mut escaped = String::with_capacity(text.len());
    for character in text.chars() {
        match character {
            '&' => escaped.push_str("&amp;"),
            '<' => escaped.push_str("&lt;"),
            '>' => escaped.push_str("&gt;"),
            '"' => escaped.push_str("&quot;"),
            '\'' => escaped.push_str("&#39;"),
            other => escaped.push(other),
        }
    }
    escaped
}

/// So many of what is counted.
pub fn plural(count: usize, what: &str) -> String {
    format!("{count} {what}{}", if count == 1 { "" } else { "s" })
}

/// A term in notation, which can break where an encryption ends in another. A cut leads
/// to its row in the table of terms; the script unfolds it where it stands.
pub fn code(noted: &Noted) -> String {
    let piece = |piece: &Piece| match piece {
        Piece::Text(text) => escape(text),
        Piece::Cut(term) => format!("<a class=\"cut\" href=\"#term-{term}\">…{term}</a>"),
    };
    let shown: String = noted.pieces.iter().map(piece).collect();
    format!("<code>{}</code>", shown.replace(")}", ")<wbr>}"))
}

/// The file's name without its folders.
fn title(listed: &Listed) -> String {
    escape(listed.name.rsplit(['/', '\\']).next().unwrap_or(&listed.name))
}

pub fn page(listed: &Listed, rows: &[Row]) -> String {
    let name = title(listed);
    let walk = listed.walk.as_ref();
    let mut html = format!(
        "<!DOCTYPE html>\n<html lang=\"en\">\n<head>\n<meta charset=\"utf-8\">\n\
         <meta name=\"viewport\" content=\"width=device-width, initial-scale=1\">\n\
         <meta name=\"color-scheme\" content=\"light dark\">\n\
         <title>{name} - Pogandir</title>\n<style>\n{STYLE}</style>\n</head>\n<body>\n\
         <header>\n<h1>{name}</h1>\n"
    );
    html.push_str(&summary::counts(listed, rows));
    html.push_str(&walk.map(summary::realm).unwrap_or_default());
    html.push_str("</header>\n<main>\n");
    html.push_str(&walk.map(|walk| chart::section(walk, rows)).unwrap_or_default());
    html.push_str(&format!("<p class=\"legend\">{LEGEND}</p>\n"));
    html.push_str(&table::table(rows));
    html.push_str(&walk.map(terms::section).unwrap_or_default());
    html.push_str(&listing(listed));
    html.push_str("</main>\n");
    html.push_str(&walk.map(terms::data).unwrap_or_default());
    html.push_str(&format!("<script>\n{SCRIPT}</script>\n</body>\n</html>\n"));
    html
}

fn listing(listed: &Listed) -> String {
    let lines = listed.lines.join("\n");
    format!(
        "<details class=\"part\" id=\"listing\"><summary>The listing, {}</summary>\n\
         <pre>{}</pre></details>\n",
        plural(listed.lines.len(), "line"),
        escape(&lines)
    )
}
