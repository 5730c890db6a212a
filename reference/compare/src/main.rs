//! The command `compare`: the reference and another engine over the same files,
//! or the same writes.

use std::path::{Path, PathBuf};
use std::process::ExitCode;

use compare::{writes, Engine, Outcome};

const USAGE: &str = "usage:
  compare [--program PATH] --seed S --count N [--from I] [--damaged]
      over generated files I to I + N - 1; of the damaged and random ones alone
  compare [--program PATH] --files DIR
      over all .walk files of a directory
  compare --writes --seed S --count N [--from I]
      over generated writes I to I + N - 1, in this process alone
Without a program the proved engine runs in this process, if `compare` was built with it.";

const NO_ENGINE: &str = "this build has no engine: name a --program for files, or build with it:
  tools/archive                                                    (at the repository's top)
  cargo build --release --offline -p compare --features engine     (in reference/)";

#[derive(Default)]
struct Options {
    program: Option<PathBuf>,
    seed: u64,
    from: u64,
    count: Option<u64>,
    damaged: bool,
    writes: bool,
    files: Option<PathBuf>,
}

fn main() -> ExitCode {
    let Some(options) = options(std::env::args().skip(1)) else {
        eprintln!("{USAGE}");
        return ExitCode::from(2);
    };
    match run(&options) {
        Ok(outcome) => report(&outcome, if options.writes { "writes" } else { "files" }),
        Err(error) => {
            eprintln!("compare: {error}");
            ExitCode::from(2)
        }
    }
}

fn options(mut arguments: impl Iterator<Item = String>) -> Option<Options> {
    let mut options = Options::default();
    while let Some(argument) = arguments.next() {
        match argument.as_str() {
            "--program" => options.program = Some(arguments.next()?.into()),
            "--seed" => options.seed = arguments.next()?.parse().ok()?,
            "--from" => options.from = arguments.next()?.parse().ok()?,
            "--count" => options.count = Some(arguments.next()?.parse().ok()?),
            "--damaged" => options.damaged = true,
            "--writes" => options.writes = true,
            "--files" => options.files = Some(arguments.next()?.into()),
            _ => return None,
        }
    }
    Some(options)
}

fn run(options: &Options) -> Result<Outcome, String> {
    if options.writes {
        return written(options);
    }
    let engine = match &options.program {
        Some(path) => Engine::Program(path.clone()),
        None => Engine::linked().ok_or(NO_ENGINE)?,
    };
    match (&options.files, options.count) {
        (Some(directory), None) => stored(&engine, directory),
        (None, Some(count)) => Ok(generated(&engine, options, count)),
        _ => Err("name either --count or --files".to_string()),
    }
}

fn generated(engine: &Engine, options: &Options, count: u64) -> Outcome {
    let made = if options.damaged { generator::damaged_file } else { generator::walk_file };
    let kind = if options.damaged { " --damaged" } else { "" };
    let mut outcome = Outcome::default();
    for number in options.from..options.from + count {
        let name = format!("generated file: --seed {} --file {number}{kind}", options.seed);
        outcome.compare(engine, &name, &made(options.seed, number));
    }
    outcome
}

fn written(options: &Options) -> Result<Outcome, String> {
    if options.program.is_some() || options.files.is_some() || options.damaged {
        return Err("--writes goes with --seed, --count and --from alone".to_string());
    }
    let count = options.count.ok_or("name --count")?;
    let writer = writes::linked().ok_or(NO_ENGINE)?;
    let mut outcome = Outcome::default();
    for number in options.from..options.from + count {
        let name = format!("generated write: --seed {} --write {number}", options.seed);
        outcome.compare_write(writer, &name, &generator::write(options.seed, number));
    }
    Ok(outcome)
}

fn stored(engine: &Engine, directory: &Path) -> Result<Outcome, String> {
    let entries = std::fs::read_dir(directory)
        .map_err(|error| format!("{}: {error}", directory.display()))?;
    let mut paths: Vec<PathBuf> = entries.filter_map(|entry| Some(entry.ok()?.path())).collect();
    paths.retain(|path| path.extension().is_some_and(|extension| extension == "walk"));
    paths.sort();
    let mut outcome = Outcome::default();
    for path in paths {
        let file = std::fs::read(&path).map_err(|error| format!("{}: {error}", path.display()))?;
        outcome.compare(engine, &path.display().to_string(), &file);
    }
    Ok(outcome)
}

fn report(outcome: &Outcome, inputs: &str) -> ExitCode {
    println!("{} {inputs} compared, {} differ", outcome.compared, outcome.different);
    if let Some((name, difference)) = &outcome.first {
        println!("first: {name}\n{difference}");
    }
    if outcome.different > 0 || outcome.compared == 0 {
        return ExitCode::FAILURE;
    }
    ExitCode::SUCCESS
}
