//! The stored cases of the test programs: for each program its standard input,
//! and what it must write. The answers are the reference's, by document 01; the
//! proved engine is not asked.
//!
//! A program's module says what its lines mean and answers them; the module of
//! its cases makes the lines.

pub mod call_cases;
pub mod calls;
pub mod derive;
pub mod derive_cases;
pub mod line;
pub mod term_cases;
pub mod terms;

use line::Line;

/// What a program does with a line: it may write, and it keeps a state.
pub trait Program {
    fn obey(&mut self, line: &Line, output: &mut String);
}

/// A program's input, line by line, and what it has written so far.
pub struct Script<P> {
    pub program: P,
    input: String,
    output: String,
}

impl<P: Program> Script<P> {
    pub fn new(program: P) -> Script<P> {
        Script { program, input: String::new(), output: String::new() }
    }

    pub fn line(&mut self, line: Line) {
        self.input += &line.written();
        self.program.obey(&line, &mut self.output);
    }

    pub fn text(&mut self, text: &str) {
        self.line(Line::Text(text.to_string()));
    }

    pub fn numbers(&mut self, letter: char, numbers: &[u32]) {
        self.line(Line::new(letter, numbers));
    }

    fn stored(self, name: &'static str) -> Stored {
        Stored { name, input: self.input, output: self.output }
    }
}

/// What a program writes on this input.
pub fn output<P: Program>(mut program: P, input: &str) -> String {
    let mut output = String::new();
    for line in Line::read(input) {
        program.obey(&line, &mut output);
    }
    output
}

/// The files `stdin` and `stdout` of a program.
pub struct Stored {
    pub name: &'static str,
    pub input: String,
    pub output: String,
}

/// The files of every program.
pub fn all() -> Vec<Stored> {
    vec![
        call_cases::script().stored("call_cases"),
        term_cases::script().stored("term_tables"),
        derive_cases::script().stored("derive_cases"),
    ]
}
