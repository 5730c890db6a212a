//! Reads a walk file on standard input and writes its listing; with `--rewrite`,
//! the file again, from its header and records, or the refusal that it meets.

use std::io::{self, Read, Write};
use std::process::ExitCode;

const USAGE: &str = "usage: reference [--rewrite] < FILE.walk";

fn main() -> io::Result<ExitCode> {
    let arguments: Vec<String> = std::env::args().skip(1).collect();
    match arguments.iter().map(String::as_str).collect::<Vec<_>>()[..] {
        [] => {
            put(reference::listing(&read()?).as_bytes())?;
            Ok(ExitCode::SUCCESS)
        }
        ["--rewrite"] => rewrite(),
        _ => {
            eprintln!("{USAGE}");
            Ok(ExitCode::from(2))
        }
    }
}

fn rewrite() -> io::Result<ExitCode> {
    match reference::writing::rewrite(&read()?) {
        Ok(file) => {
            put(&file)?;
            Ok(ExitCode::SUCCESS)
        }
        Err(refusal) => {
            eprintln!("refused {}", refusal.number());
            Ok(ExitCode::FAILURE)
        }
    }
}

fn read() -> io::Result<Vec<u8>> {
    let mut file = Vec::new();
    io::stdin().lock().read_to_end(&mut file)?;
    Ok(file)
}

fn put(bytes: &[u8]) -> io::Result<()> {
    io::stdout().lock().write_all(bytes)
}
