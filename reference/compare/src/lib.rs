//! Runs another engine and the reference over the same files, or the same writes.

pub mod writes;

use std::fmt;
use std::io::Write;
use std::path::PathBuf;
use std::process::{Command, Stdio};

/// The engine that is compared with the reference: something that gives the
/// listing of a walk file.
pub enum Engine {
    /// A program, started once for each file.
    Program(PathBuf),
    /// A function in this process, for runs of many files.
    Function(fn(&[u8]) -> Vec<u8>),
}

impl Engine {
    /// The proved engine in this process; none in a build without it.
    #[cfg(feature = "engine")]
    pub fn linked() -> Option<Engine> {
        Some(Engine::Function(lent::listing))
    }

    #[cfg(not(feature = "engine"))]
    pub fn linked() -> Option<Engine> {
        None
    }

    pub fn listing(&self, file: &[u8]) -> Result<Vec<u8>, String> {
        match self {
            Engine::Program(path) => {
                run(path, file).map_err(|error| format!("{}: {error}", path.display()))
            }
            Engine::Function(listing) => Ok(listing(file)),
        }
    }
}

/// Feeds the file in beside reading, so that neither side waits for the other.
fn run(path: &PathBuf, file: &[u8]) -> Result<Vec<u8>, String> {
    let mut command = Command::new(path);
    command.stdin(Stdio::piped()).stdout(Stdio::piped());
    let mut child = command.spawn().map_err(|error| error.to_string())?;
    let mut input = child.stdin.take().ok_or("no standard input")?;
    let output = std::thread::scope(|scope| {
        // A program that stops reading early is judged by its listing.
        scope.spawn(move || input.write_all(file));
        child.wait_with_output()
    });
    let output = output.map_err(|error| error.to_string())?;
    if !output.status.success() {
        return Err(output.status.to_string());
    }
    Ok(output.stdout)
}

/// The first place where two listings differ.
#[derive(Debug, PartialEq, Eq)]
pub struct Difference {
    /// Counted from 1.
    pub line: usize,
    pub reference: String,
    pub engine: String,
}

impl fmt::Display for Difference {
    fn fmt(&self, f: &mut fmt::Formatter) -> fmt::Result {
        writeln!(f, "line {}", self.line)?;
        writeln!(f, "  reference: {}", self.reference)?;
        write!(f, "  engine:    {}", self.engine)
    }
}

pub fn first_difference(reference: &[u8], engine: &[u8]) -> Option<Difference> {
    if reference == engine {
        return None;
    }
    let lines = |listing: &[u8]| -> Vec<String> {
        let lines = listing.split_inclusive(|byte| *byte == b'\n');
        lines.map(|line| String::from_utf8_lossy(line).escape_default().to_string()).collect()
    };
    let (reference, engine) = (lines(reference), lines(engine));
    let at = |lines: &[String], line: usize| {
        lines.get(line).map_or("(nothing)".to_string(), String::clone)
    };
    let line = (0..).find(|line| reference.get(*line) != engine.get(*line))?;
    let (reference, engine) = (at(&reference, line), at(&engine, line));
    Some(Difference { line: line + 1, reference, engine })
}

/// What a run over many files or writes found.
#[derive(Default)]
pub struct Outcome {
    pub compared: u64,
    pub different: u64,
    /// The first that differs, and how.
    pub first: Option<(String, String)>,
}

impl Outcome {
    /// Compares one more file.
    pub fn compare(&mut self, engine: &Engine, name: &str, file: &[u8]) {
        let expected = reference::listing(file).into_bytes();
        let difference = match engine.listing(file) {
            Ok(listing) => first_difference(&expected, &listing).map(|found| found.to_string()),
            Err(error) => Some(error),
        };
        self.add(name, difference);
    }

    fn add(&mut self, name: &str, difference: Option<String>) {
        self.compared += 1;
        if let Some(difference) = difference {
            self.different += 1;
            self.first.get_or_insert((name.to_string(), difference));
        }
    }
}
