//! The lines of a program's standard input: 68 bytes, a letter first, then six
//! numbers or a text. `crates/cases` reads the same.

const TEXT: usize = 65;

#[derive(Clone, Debug, PartialEq, Eq)]
pub enum Line {
    /// What the answer that comes next is about.
    Text(String),
    Numbers(char, [u32; 6]),
}

impl Line {
    /// A line with these numbers, and zeros behind them.
    pub fn new(letter: char, numbers: &[u32]) -> Line {
        let mut all = [0; 6];
        all[..numbers.len()].copy_from_slice(numbers);
        Line::Numbers(letter, all)
    }

    /// The line, with its end. A text must fit, and not end in a dot.
    pub fn written(&self) -> String {
        match self {
            Line::Text(text) => {
                assert!(text.is_ascii() && text.len() <= TEXT && !text.ends_with('.'), "{text}");
                format!("L {text:.<TEXT$}\n")
            }
            Line::Numbers(letter, numbers) => {
                let columns: Vec<String> = numbers.iter().map(|n| format!("{n:10}")).collect();
                format!("{letter} {}\n", columns.join(" "))
            }
        }
    }

    /// The lines of a file, which is well formed.
    pub fn read(file: &str) -> Vec<Line> {
        file.lines().map(Line::parse).collect()
    }

    fn parse(line: &str) -> Line {
        let (letter, rest) = line.split_at(1);
        if letter == "L" {
            return Line::Text(rest[1..].trim_end_matches('.').to_string());
        }
        let numbers: Vec<u32> = rest.split_whitespace().map(|n| n.parse().unwrap()).collect();
        Line::new(letter.chars().next().unwrap(), &numbers)
    }
}
