//! The command `generate`: walk files, the coverage table, and vectors.

use std::fs;
use std::path::PathBuf;
use std::process::ExitCode;

use generator::coverage::Tally;
use generator::{damaged_file, vectors, walk_file, writes};

const USAGE: &str = "usage:
  generate --seed S --count N --out DIR [--damaged]  write N walk files
  generate --seed S --file I [--damaged]             write walk file I to standard output
  generate --seed S --write I                        print write I in words
  generate --coverage --seed S --count N [--writes]  print the coverage table
  generate --vectors DIR --count N [--seed S]        write N small walks with listings
--damaged makes the damaged and random ones alone; --writes counts writes, not files.";

#[derive(Default)]
struct Options {
    seed: u64,
    count: Option<u64>,
    out: Option<PathBuf>,
    vectors: Option<PathBuf>,
    file: Option<u64>,
    write: Option<u64>,
    coverage: bool,
    damaged: bool,
    writes: bool,
}

fn main() -> ExitCode {
    let Some(options) = options(std::env::args().skip(1)) else {
        eprintln!("{USAGE}");
        return ExitCode::from(2);
    };
    match run(&options) {
        Ok(()) => ExitCode::SUCCESS,
        Err(message) => {
            eprintln!("generate: {message}");
            ExitCode::FAILURE
        }
    }
}

fn options(mut arguments: impl Iterator<Item = String>) -> Option<Options> {
    let mut options = Options::default();
    while let Some(argument) = arguments.next() {
        match argument.as_str() {
            "--coverage" => options.coverage = true,
            "--damaged" => options.damaged = true,
            "--writes" => options.writes = true,
            "--seed" => options.seed = arguments.next()?.parse().ok()?,
            "--count" => options.count = Some(arguments.next()?.parse().ok()?),
            "--file" => options.file = Some(arguments.next()?.parse().ok()?),
            "--write" => options.write = Some(arguments.next()?.parse().ok()?),
            "--out" => options.out = Some(arguments.next()?.into()),
            "--vectors" => options.vectors = Some(arguments.next()?.into()),
            _ => return None,
        }
    }
    options.fit().then_some(options)
}

impl Options {
    /// One mode, with what it needs and no more.
    fn fit(&self) -> bool {
        let one = self.file.is_some() || self.write.is_some();
        let modes = [
            self.coverage,
            self.out.is_some(),
            self.vectors.is_some(),
            self.file.is_some(),
            self.write.is_some(),
        ];
        let one_mode = modes.iter().filter(|is| **is).count() == 1;
        let writes_files = self.out.is_some() || self.file.is_some();
        let counted = one || self.count.is_some();
        one_mode && counted && (writes_files || !self.damaged) && (self.coverage || !self.writes)
    }
}

fn run(options: &Options) -> Result<(), String> {
    let count = options.count.unwrap_or(0);
    let made = if options.damaged { damaged_file } else { walk_file };
    if let Some(number) = options.file {
        use std::io::Write;
        let written = std::io::stdout().write_all(&made(options.seed, number));
        return written.map_err(|error| error.to_string());
    }
    if let Some(number) = options.write {
        print!("{}", generator::write(options.seed, number));
        return Ok(());
    }
    if let Some(out) = &options.out {
        fs::create_dir_all(out).map_err(|error| format!("{}: {error}", out.display()))?;
        for number in 0..count {
            write(out.join(format!("{number}.walk")), &made(options.seed, number))?;
        }
        return Ok(());
    }
    if let Some(out) = &options.vectors {
        return write_vectors(options.seed, count as usize, out);
    }
    coverage(options, count)
}

fn write(path: PathBuf, bytes: &[u8]) -> Result<(), String> {
    fs::write(&path, bytes).map_err(|error| format!("{}: {error}", path.display()))
}

fn write_vectors(seed: u64, count: usize, out: &PathBuf) -> Result<(), String> {
    fs::create_dir_all(out).map_err(|error| format!("{}: {error}", out.display()))?;
    let (vectors, left_out) = vectors::choose(seed, count);
    if !left_out.is_empty() {
        return Err(format!("{count} vectors leave out {left_out:?}"));
    }
    for vector in &vectors {
        write(out.join(format!("{}.walk", vector.name)), &vector.file)?;
        let listing = reference::listing(&vector.file);
        write(out.join(format!("{}.listing", vector.name)), listing.as_bytes())?;
    }
    let bytes: usize = vectors.iter().map(|vector| vector.file.len()).sum();
    println!("{} vectors, {bytes} bytes of walks, every cell met", vectors.len());
    Ok(())
}

fn coverage(options: &Options, count: u64) -> Result<(), String> {
    let mut tally = Tally::default();
    for number in 0..count {
        if options.writes {
            tally.meet(writes::coverage::cells_met(&generator::write(options.seed, number)));
        } else {
            tally.add(&walk_file(options.seed, number));
        }
    }
    let (table, complaints) =
        if options.writes { writes::coverage::report(&tally) } else { tally.report() };
    print!("{table}");
    if complaints.is_empty() {
        return Ok(());
    }
    Err(complaints.join("\n"))
}
