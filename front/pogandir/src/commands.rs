//! What each command does, and the exit status that it comes to.

use std::fs;
use std::io::{self, IsTerminal, Write};

use crate::check::{self, Verdict};
use crate::faults::{Fault, Severity};
use crate::json;
use crate::listed::Listed;
use crate::notation::Names;
use crate::options::{Command, Options};
use crate::plain;
use crate::script::{self, Script};
use crate::sheet;
use crate::source::{has_header_mark, is_utf16, load, Content, Source};

/// Exit statuses. Of many files the highest counts.
pub const AS_EXPECTED: u8 = 0;
pub const DIFFERS: u8 = 1;
pub const BAD_INPUT: u8 = 2;
pub const FAILED: u8 = 3;

/// What a command made of one file.
struct Made {
    status: u8,
    /// What goes to standard output.
    output: Vec<u8>,
    faults: Vec<Fault>,
}

/// A walk, from a file or from a text with its expectations.
enum Given {
    Walk(Listed),
    Text(Script),
}

impl Given {
    fn listed(&self) -> &Listed {
        match self {
            Given::Walk(listed) => listed,
            Given::Text(script) => &script.listed,
        }
    }

    fn faults(&self) -> &[Fault] {
        match self {
            Given::Walk(_) => &[],
            Given::Text(script) => &script.faults,
        }
    }

    fn verdict(&self) -> Verdict {
        match self {
            Given::Walk(listed) => check::listed(listed),
            Given::Text(script) => check::script(script),
        }
    }
}

/// Runs a command on its files.
pub fn run(options: &Options) -> u8 {
    match run_files(options) {
        Ok(status) => status,
        Err(error) if error.kind() == io::ErrorKind::BrokenPipe => FAILED,
        Err(error) => {
            tell(&format!("pogandir: {error}"));
            FAILED
        }
    }
}

fn run_files(options: &Options) -> io::Result<u8> {
    let mut progress = Progress::new(options.files.len());
    let mut output = Vec::new();
    let mut status = AS_EXPECTED;
    let mut good = 0;
    for (place, path) in options.files.iter().enumerate() {
        progress.show(place);
        let made = match load(path, options.form) {
            Ok(source) => make(options, source),
            Err(error) => unread(options, path, &error),
        };
        progress.clear();
        tell_faults(options, path, &made.faults);
        good += usize::from(made.status == AS_EXPECTED);
        status = status.max(made.status);
        if options.json && place > 0 {
            output.extend(b",\n");
        }
        output.extend(made.output);
        // a file or a JSON text is written whole, at the end
        if !options.json && options.output.is_none() {
            print(&mut output)?;
        }
    }
    finish(options, output, good, status)?;
    Ok(status)
}

/// Writes what is left: the whole of a file or of JSON, and a last line for many
/// checks.
fn finish(options: &Options, mut output: Vec<u8>, good: usize, status: u8) -> io::Result<()> {
    let files = options.files.len();
    if options.json {
        output = [b"[", &output[..], b"]\n"].concat();
    } else if options.command == Command::Check && files > 1 {
        let line = format!("{files} files, {good} as expected, {} not\n", files - good);
        output.extend(line.into_bytes());
    }
    let Some(path) = &options.output else { return print(&mut output) };
    // a file stays as it was where nothing was made for it
    if output.is_empty() && status >= BAD_INPUT {
        return Ok(());
    }
    let named = |error: io::Error| io::Error::new(error.kind(), format!("{path}: {error}"));
    fs::write(path, &output).map_err(named)
}

/// A line on standard error, where somebody reads it.
pub fn tell(line: &str) {
    let _ = writeln!(io::stderr(), "{line}");
}

/// Writes the buffer to standard output and empties it.
pub fn print(buffer: &mut Vec<u8>) -> io::Result<()> {
    let mut out = io::stdout().lock();
    out.write_all(buffer).and_then(|()| out.flush())?;
    buffer.clear();
    Ok(())
}

fn unread(options: &Options, path: &str, error: &io::Error) -> Made {
    tell(&format!("pogandir: {path}: {error}"));
    let fields = [
        ("file", json::string(path)),
        ("as_expected", "false".to_string()),
        ("failed", json::string(&error.to_string())),
    ];
    let output = if options.json { json::object(fields).into_bytes() } else { Vec::new() };
    Made { status: FAILED, output, faults: Vec::new() }
}

fn tell_faults(options: &Options, path: &str, faults: &[Fault]) {
    let name = if path == "-" { "standard input" } else { path };
    if !options.json {
        faults.iter().for_each(|fault| tell(&fault.at(name)));
    }
}

/// What the command makes of one file.
fn make(options: &Options, source: Source) -> Made {
    let name = source.name.clone();
    if options.command == Command::Text {
        return text(options, source);
    }
    if let (Command::Bytes, Content::Walk(bytes)) = (options.command, &source.content) {
        return no_text(&name, bytes);
    }
    let hint = hint(options, &source);
    let given = match source.content {
        Content::Walk(bytes) => Given::Walk(Listed::of_bytes(&name, bytes, options.names.clone())),
        Content::Text(text) => Given::Text(script::read(&name, &text)),
    };
    let mut faults = given.faults().to_vec();
    let is_faulty = faults.iter().any(Fault::is_error);
    // a good text was meant as one
    if is_faulty || matches!(given, Given::Walk(_)) || options.names != Names::default() {
        faults.extend(hint);
    }
    if is_faulty {
        let fields = vec![("as_expected", "false".to_string())];
        return Made {
            status: BAD_INPUT,
            output: json_of(options, &name, &faults, fields),
            faults,
        };
    }
    let (status, output) = match options.command {
        Command::List => (AS_EXPECTED, list(options, given.listed(), &faults)),
        Command::Check => checked(options, &given, &faults),
        Command::Sheet => (AS_EXPECTED, sheet(options, given.listed(), &faults)),
        _ => (AS_EXPECTED, given.listed().bytes.clone()),
    };
    Made { status, output, faults }
}

/// A file as an object with its faults; nothing where JSON was not asked for.
fn json_of(
    options: &Options,
    name: &str,
    faults: &[Fault],
    fields: Vec<(&'static str, String)>,
) -> Vec<u8> {
    if !options.json {
        return Vec::new();
    }
    let mut all = vec![("file", json::string(name))];
    all.extend(fields);
    all.push(("faults", json::array(faults.iter().map(Fault::json))));
    json::object(all).into_bytes()
}

fn list(options: &Options, listed: &Listed, faults: &[Fault]) -> Vec<u8> {
    if options.json {
        let lines = json::array(listed.lines.iter().map(|line| json::string(line)));
        return json_of(options, &listed.name, faults, vec![("listing", lines)]);
    }
    let mut output = String::new();
    if options.files.len() > 1 {
        output += &format!("==> {} <==\n", listed.name);
    }
    listed.lines.iter().for_each(|line| output += &format!("{line}\n"));
    output.into_bytes()
}

fn checked(options: &Options, given: &Given, faults: &[Fault]) -> (u8, Vec<u8>) {
    let verdict = given.verdict();
    let status = if verdict.holds() { AS_EXPECTED } else { DIFFERS };
    let output = match options.json {
        true => json_of(options, &verdict.name, faults, verdict.json_fields()),
        false => verdict.shown().into_bytes(),
    };
    (status, output)
}

fn sheet(options: &Options, listed: &Listed, faults: &[Fault]) -> Vec<u8> {
    let made = match (options.json, options.csv) {
        (true, _) => sheet::json(listed, faults),
        (false, true) => sheet::csv(listed),
        (false, false) => sheet::html(listed),
    };
    made.into_bytes()
}

/// A walk file in words; a text as it is.
fn text(options: &Options, source: Source) -> Made {
    let (lines, faults) = match source.content {
        Content::Walk(bytes) => {
            let lines = plain::lines(&bytes);
            let listed = || Listed::of_bytes(&source.name, bytes.clone(), options.names.clone());
            (if options.expect { check::expecting(&listed(), &lines) } else { lines }, Vec::new())
        }
        Content::Text(_) => {
            let message = "this is a text already; `pogandir bytes` turns it into a walk file, \
                and --walk takes its characters as one";
            (Vec::new(), vec![fault_at_start(message.to_string())])
        }
    };
    let status = if faults.is_empty() { AS_EXPECTED } else { BAD_INPUT };
    let output = lines.iter().flat_map(|line| [line.as_bytes(), b"\n"].concat()).collect();
    Made { status, output, faults }
}

/// A walk file, or another file, where a text is expected.
fn no_text(name: &str, bytes: &[u8]) -> Made {
    let message = match bytes {
        _ if is_utf16(bytes) => "this is a text in UTF-16; save it as UTF-8".to_string(),
        _ if has_header_mark(bytes) => {
            format!("this is a walk file and no text; `pogandir text {name}` writes it in words")
        }
        _ => "this is no text: it has bytes that are no characters".to_string(),
    };
    Made { status: BAD_INPUT, output: Vec::new(), faults: vec![fault_at_start(message)] }
}

/// What is said of an input that may have been meant as another.
fn hint(options: &Options, source: &Source) -> Option<Fault> {
    let message = match &source.content {
        _ if options.form.is_some() => return None,
        Content::Text(_) if options.names != Names::default() => {
            "this is a text, which has its own names; --names is for walk files"
        }
        Content::Text(_) if source.name.ends_with(".walk") => {
            "it has no bytes but characters, so it was read as a text; --walk reads it as a walk file"
        }
        Content::Walk(bytes) if is_utf16(bytes) => "this looks like a text in UTF-16; save it as UTF-8",
        Content::Walk(bytes) if !has_header_mark(bytes) => {
            "it has bytes that are no characters in UTF-8, so it was read as a walk file"
        }
        _ => return None,
    };
    Some(Fault { severity: Severity::Warning, ..fault_at_start(message.to_string()) })
}

fn fault_at_start(message: String) -> Fault {
    Fault { line: 1, column: 1, severity: Severity::Error, message }
}

/// A line on standard error that says how far many files have come, where that is
/// a terminal.
struct Progress {
    total: usize,
    shown: bool,
}

impl Progress {
    fn new(total: usize) -> Progress {
        Progress { total, shown: total > 1 && io::stderr().is_terminal() }
    }

    fn show(&mut self, done: usize) {
        if self.shown {
            let _ = write!(io::stderr(), "\r{done} of {} files", self.total);
        }
    }

    fn clear(&mut self) {
        if self.shown {
            let _ = write!(io::stderr(), "\r\x1b[K");
        }
    }
}
