//! Instructions, counted by valgrind's callgrind where it is there. This program
//! is started again under it, and only one function of it is counted: a pass over
//! files that were made before, or a call on tables that are made before.

use std::fs;
use std::io;
use std::path::{Path, PathBuf};
use std::process::{self, Command, Stdio};

use crate::calls::Which;
use crate::sides::{buffer, Input, Side, Work};

pub fn is_there() -> bool {
    let run = Command::new("valgrind").arg("--version").stdout(Stdio::null()).status();
    run.is_ok_and(|status| status.success())
}

/// The instructions of a pass of this side over the files.
pub fn of_pass(side: Side, input: &Input) -> io::Result<u64> {
    let (files, work) = (scratch("files"), input.work);
    fs::write(&files, packed(&input.files))?;
    let words = ["pass", work.name(), side.name(), &files.to_string_lossy()];
    let counted = counted(side.symbol(work), &words);
    fs::remove_file(&files)?;
    counted
}

/// What the child does: one pass over the files.
pub fn pass(work: Work, side: Side, files: &Path) -> io::Result<()> {
    let input = Input::new(work, unpacked(&fs::read(files)?));
    side.pass(&input, &mut buffer());
    Ok(())
}

/// The instructions of one call: `make` with these two numbers makes it.
pub fn of_call(number: usize, terms: usize, which: Which) -> io::Result<u64> {
    let (number, terms) = (number.to_string(), terms.to_string());
    counted(which.symbol(), &["call", &number, &terms, which.name()])
}

/// The instructions inside the function with this name, in a child that is given
/// these words.
fn counted(symbol: &str, words: &[&str]) -> io::Result<u64> {
    let output = scratch("callgrind");
    let status = Command::new("valgrind")
        .arg("--tool=callgrind")
        .arg(format!("--toggle-collect={symbol}"))
        .arg(format!("--callgrind-out-file={}", output.display()))
        .arg(std::env::current_exe()?)
        .args(words)
        .stderr(Stdio::null())
        .status()?;
    if !status.success() {
        return Err(io::Error::other("valgrind failed"));
    }
    let counted = fs::read_to_string(&output)?;
    fs::remove_file(&output)?;
    total(&counted).ok_or(io::Error::other("callgrind wrote no total"))
}

/// A file that is removed again.
fn scratch(kind: &str) -> PathBuf {
    std::env::temp_dir().join(format!("pogandir-bench-{}.{kind}", process::id()))
}

/// Each file's length in four bytes, then its bytes.
fn packed(files: &[Vec<u8>]) -> Vec<u8> {
    let mut bytes = Vec::new();
    for file in files {
        bytes.extend((file.len() as u32).to_be_bytes());
        bytes.extend(file);
    }
    bytes
}

fn unpacked(mut bytes: &[u8]) -> Vec<Vec<u8>> {
    let mut files = Vec::new();
    while let Some((length, rest)) = bytes.split_first_chunk::<4>() {
        let (file, rest) = rest.split_at(u32::from_be_bytes(*length) as usize);
        files.push(file.to_vec());
        bytes = rest;
    }
    files
}

/// The number in callgrind's line `totals: N`.
fn total(counted: &str) -> Option<u64> {
    let line = counted.lines().find_map(|line| line.strip_prefix("totals: "))?;
    line.trim().parse().ok()
}

#[cfg(test)]
mod tests {
    use super::*;

    #[test]
    fn packed_files_are_unpacked() {
        let files = vec![b"HD".to_vec(), vec![], vec![7; 70_000]];
        assert_eq!(unpacked(&packed(&files)), files);
    }

    #[test]
    fn the_total_is_read() {
        assert_eq!(total("events: Ir\nsummary: 5\n\ntotals: 1234\n"), Some(1234));
        assert_eq!(total("events: Ir\n"), None);
    }
}
