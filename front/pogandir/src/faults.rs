//! What is wrong with a text, at which place.

use std::fmt;

use crate::json;

#[derive(Clone, Copy, Debug, PartialEq, Eq, PartialOrd, Ord)]
pub enum Severity {
    Error,
    Warning,
}

/// Lines and columns are counted from 1, columns in characters.
#[derive(Clone, Debug, PartialEq, Eq)]
pub struct Fault {
    pub line: usize,
    pub column: usize,
    pub severity: Severity,
    pub message: String,
}

impl Fault {
    pub fn is_error(&self) -> bool {
        self.severity == Severity::Error
    }

    /// In the form that editors know: file, line, column.
    pub fn at(&self, file: &str) -> String {
        format!("{file}:{}:{}: {}: {}", self.line, self.column, self.severity, self.message)
    }

    pub fn json(&self) -> String {
        json::object([
            ("line", self.line.to_string()),
            ("column", self.column.to_string()),
            ("severity", json::string(&self.severity.to_string())),
            ("message", json::string(&self.message)),
        ])
    }
}

impl fmt::Display for Severity {
    fn fmt(&self, f: &mut fmt::Formatter) -> fmt::Result {
        f.write_str(match self {
            Severity::Error => "error",
            Severity::Warning => "warning",
        })
    }
}
