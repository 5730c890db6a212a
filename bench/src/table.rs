//! Tables in Markdown, as docs/PERFORMANCE.md has them.

use std::time::Duration;

/// The head of a table: the first column is words, the others are numbers.
pub fn head(names: &[&str]) {
    line(names);
    let mut rule = vec!["---"];
    rule.resize(names.len(), "--:");
    println!("|{}|", rule.join("|"));
}

pub fn line(cells: &[impl AsRef<str>]) {
    println!("{}", row(cells));
}

fn row(cells: &[impl AsRef<str>]) -> String {
    let cells: Vec<&str> = cells.iter().map(AsRef::as_ref).collect();
    format!("| {} |", cells.join(" | "))
}

/// Three places that count, or all of a whole number.
pub fn figure(number: f64) -> String {
    let places = match number {
        n if n >= 100.0 => 0,
        n if n >= 10.0 => 1,
        n if n >= 1.0 => 2,
        _ => 3,
    };
    format!("{number:.places$}")
}

pub fn milliseconds(time: Duration) -> f64 {
    time.as_secs_f64() * 1e3
}

pub fn microseconds(time: Duration) -> f64 {
    time.as_secs_f64() * 1e6
}

#[cfg(test)]
mod tests {
    use super::*;

    #[test]
    fn cells_are_joined() {
        assert_eq!(row(&["a", "1.0", ""]), "| a | 1.0 |  |");
    }

    #[test]
    fn figures_have_three_places() {
        let figures = [0.1234, 1.234, 12.34, 1234.5].map(figure);
        assert_eq!(figures, ["0.123", "1.23", "12.3", "1234"]);
    }
}
