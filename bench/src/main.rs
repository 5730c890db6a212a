//! Prints the tables of docs/PERFORMANCE.md.
//!
//! `--times` leaves the instructions out. `pass WORK SIDE FILE` is what callgrind runs.

use std::hint::black_box;
use std::path::Path;
use std::process::exit;
use std::{env, io};

use bench::calls::{make, Which, CALLS, EACH, WHOLE};
use bench::rows::{Row, ROWS};
use bench::sides::{buffer, compare, Input, Side, Work};
use bench::table::{figure, head, line, microseconds, milliseconds};
use bench::timing::least_of;
use bench::{callgrind, walks};

fn main() -> io::Result<()> {
    let words: Vec<String> = env::args().skip(1).collect();
    let words: Vec<&str> = words.iter().map(String::as_str).collect();
    match words[..] {
        ["pass", work, side, files] => {
            let work = Work::named(work).ok_or(io::Error::other("list or write"))?;
            let side = Side::named(side).ok_or(io::Error::other("engine or reference"))?;
            callgrind::pass(work, side, Path::new(files))
        }
        ["call", number, terms, which] => {
            let which =
                Which::named(which).ok_or(io::Error::other("engine, check or reference"))?;
            make(number_of(number)?, number_of(terms)?).take(which);
            Ok(())
        }
        [] => tables(callgrind::is_there()),
        ["--times"] => tables(false),
        _ => {
            eprintln!("use: bench [--times]");
            exit(2)
        }
    }
}

fn number_of(word: &str) -> io::Result<usize> {
    word.parse().map_err(io::Error::other)
}

fn tables(count: bool) -> io::Result<()> {
    println!("Both sides list the same files, or write the same walks:\n");
    compared(count)?;
    println!("\nThe engine with more records, or more files:\n");
    growth(count)?;
    let unit = if count { "thousand instructions" } else { "us" };
    println!("\nOne public call, 512 terms, 64 runs, 16 entries:\n");
    public_calls(count, unit)?;
    println!("\nThe engine's public call with more terms, {unit}:\n");
    growth_of_calls(count)?;
    println!("\nBuffers, microseconds a file:\n");
    buffers();
    Ok(())
}

fn compared(count: bool) -> io::Result<()> {
    let mut names = vec!["Row", "Lines", "Engine, ms", "Reference, ms", "Ratio"];
    if count {
        names.extend(["Engine, million instructions", "Reference", "Ratio"]);
    }
    head(&names);
    for row in &ROWS {
        let input = row.input(8);
        let lines = compare(&input).unwrap_or_else(|number| {
            eprintln!("{}: the sides differ in file {number}", row.name);
            exit(1)
        });
        let (mut ours, mut theirs) = (buffer(), buffer());
        let times = least_of([&mut || Side::Engine.pass(&input, &mut ours), &mut || {
            Side::Reference.pass(&input, &mut theirs)
        }]);
        let mut cells = vec![row.name.to_string(), lines.to_string()];
        cells.extend(beside(times.map(milliseconds)));
        if count {
            let engine = instructions(Side::Engine, &input)?;
            cells.extend(beside([engine, instructions(Side::Reference, &input)?]));
        }
        line(&cells);
    }
    Ok(())
}

/// Two figures and their ratio.
fn beside([engine, reference]: [f64; 2]) -> [String; 3] {
    [figure(engine), figure(reference), figure(engine / reference)]
}

fn growth(count: bool) -> io::Result<()> {
    let mut names = vec!["Row", "1x, ms", "2x", "4x", "8x", "8x to 1x"];
    if count {
        names.extend(["1x, million instructions", "2x", "4x", "8x", "8x to 1x"]);
    }
    head(&names);
    for row in &ROWS {
        let mut cells = vec![row.name.to_string()];
        cells.extend(grown(row_times(row)));
        if count {
            let sizes = [1, 2, 4, 8].map(|eighths| row.input(eighths));
            let mut counts = [0.0; 4];
            for (input, count) in sizes.iter().zip(&mut counts) {
                *count = instructions(Side::Engine, input)?;
            }
            cells.extend(grown(counts));
        }
        line(&cells);
    }
    Ok(())
}

fn row_times(row: &Row) -> [f64; 4] {
    let [one, two, four, eight] = [1, 2, 4, 8].map(|eighths| row.input(eighths));
    let [mut b1, mut b2, mut b4, mut b8] = [1, 2, 4, 8].map(|_| buffer());
    let times = least_of([
        &mut || Side::Engine.pass(&one, &mut b1),
        &mut || Side::Engine.pass(&two, &mut b2),
        &mut || Side::Engine.pass(&four, &mut b4),
        &mut || Side::Engine.pass(&eight, &mut b8),
    ]);
    times.map(milliseconds)
}

/// Four figures, and the last to the first.
fn grown(figures: [f64; 4]) -> Vec<String> {
    let mut cells: Vec<String> = figures.iter().copied().map(figure).collect();
    cells.push(figure(figures[3] / figures[0]));
    cells
}

const TIMES: u32 = 100;

/// Microseconds of a call by the engine, of its check, and by the reference.
fn call_times(number: usize, terms: usize) -> [f64; 3] {
    let [mut engine, mut check, mut reference] = EACH.map(|_| make(number, terms));
    let times = least_of([
        &mut || (0..TIMES).for_each(|_| engine.take(Which::Engine)),
        &mut || (0..TIMES).for_each(|_| check.take(Which::Check)),
        &mut || (0..TIMES).for_each(|_| reference.take(Which::Reference)),
    ]);
    times.map(|time| microseconds(time / TIMES))
}

/// The same in thousands of instructions.
fn call_counts(number: usize, terms: usize) -> io::Result<[f64; 3]> {
    let mut counts = [0.0; 3];
    for (which, count) in EACH.into_iter().zip(&mut counts) {
        *count = callgrind::of_call(number, terms, which)? as f64 / 1e3;
    }
    Ok(counts)
}

fn public_calls(count: bool, unit: &str) -> io::Result<()> {
    let over = format!("Over the check, {unit}");
    let names = ["Call", "Sweeps", "Engine, us", "The check, us", "Reference, us", &over];
    head(&[&names[..], &["To the first row", "Reference", "Ratio"]].concat());
    let mut first = None;
    for number in 0..CALLS {
        let call = make(number, 512);
        let times = call_times(number, 512);
        let costs = if count { call_counts(number, 512)? } else { times };
        let [engine, check, reference] = costs;
        let over = engine - check;
        let first = *first.get_or_insert(over);
        let mut cells = vec![call.name.to_string(), call.sweeps.to_string()];
        cells.extend(times.map(figure));
        cells.extend([over, over / first, reference, over / reference].map(figure));
        line(&cells);
    }
    Ok(())
}

/// The check, and what the calls take over it.
fn growth_of_calls(count: bool) -> io::Result<()> {
    head(&["Call", "64 terms", "128", "256", "512", "512 to 64"]);
    for number in 0..CALLS - 1 {
        let (mut checks, mut overs) = ([0.0; 4], [0.0; 4]);
        for (size, terms) in [64, 128, 256, 512].into_iter().enumerate() {
            let costs = if count { call_counts(number, terms)? } else { call_times(number, terms) };
            let [engine, check, _] = costs;
            // the whole set is asked for by another function, which checks less
            let over = if number == WHOLE { engine } else { engine - check };
            (checks[size], overs[size]) = (check, over);
        }
        if number == 0 {
            grows("the check of the tables".into(), checks);
        }
        let what = if number == WHOLE { "with its check" } else { "over it" };
        grows(format!("{}, {what}", make(number, 64).name), overs);
    }
    Ok(())
}

fn grows(name: String, figures: [f64; 4]) {
    let mut cells = vec![name];
    cells.extend(grown(figures));
    line(&cells);
}

/// What a file costs before its first record, and what clearing would add.
fn buffers() {
    head(&["File", "Engine", "Engine, its buffer cleared before", "Reference"]);
    for (name, file) in [("empty", vec![]), ("a header alone", walks::header_alone())] {
        let one = Input::new(Work::List, vec![file.clone()]);
        let all = Input::new(Work::List, vec![file; TIMES as usize]);
        let (mut kept, mut cleared) = (buffer(), buffer());
        let times = least_of([
            &mut || Side::Engine.pass(&all, &mut kept),
            &mut || {
                for _ in 0..TIMES {
                    cleared.fill(0);
                    Side::Engine.pass(&one, black_box(&mut cleared));
                }
            },
            &mut || Side::Reference.pass(&all, &mut []),
        ]);
        let mut cells = vec![name.to_string()];
        cells.extend(times.map(|time| figure(microseconds(time / TIMES))));
        line(&cells);
    }
}

/// Instructions of a pass, in millions.
fn instructions(side: Side, input: &Input) -> io::Result<f64> {
    Ok(callgrind::of_pass(side, input)? as f64 / 1e6)
}
