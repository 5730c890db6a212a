//! Writes the stored cases, or says which of them differ.

use std::fs;
use std::path::PathBuf;
use std::process::ExitCode;

const USAGE: &str = "usage:
  cases            write stdin and stdout of each program
  cases --check    say which of them differ; status 1 if any does";

fn main() -> ExitCode {
    let arguments: Vec<String> = std::env::args().skip(1).collect();
    let check = match arguments.iter().map(String::as_str).collect::<Vec<_>>()[..] {
        [] => false,
        ["--check"] => true,
        _ => {
            eprintln!("{USAGE}");
            return ExitCode::from(2);
        }
    };
    let crates = PathBuf::from(env!("CARGO_MANIFEST_DIR")).join("../../crates");
    let mut differ = 0;
    for stored in cases::all() {
        for (file, contents) in [("stdin", &stored.input), ("stdout", &stored.output)] {
            let path = crates.join(stored.name).join(file);
            if check {
                if fs::read_to_string(&path).ok().as_ref() != Some(contents) {
                    println!("{}/{file} differs", stored.name);
                    differ += 1;
                }
            } else if let Err(error) = fs::write(&path, contents) {
                eprintln!("cases: {}: {error}", path.display());
                return ExitCode::FAILURE;
            }
        }
    }
    ExitCode::from(u8::from(differ > 0))
}
