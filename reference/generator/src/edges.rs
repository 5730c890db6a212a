//! The second part of the coverage table: in which way a cell was met.

use reference::marks::FORMATS;
use reference::rules::Rules;

use crate::cells::{most_added, refusals_of_kind};
use crate::{ahead_cells, asked_cells, carried_cells, forms, header_cells, purge_cells};

/// Cells that say in which way a cell above was met: each condition of a
/// refusal while no other condition of it holds, the limits hit exactly, and
/// the order of two refusals that apply.
pub fn edge_cells() -> Vec<String> {
    let mut cells = file_edges();
    cells.extend(header_cells::edges());
    cells.extend(principal_edges());
    cells.extend(term_edges());
    cells.extend(added_edges());
    cells.extend(input_edges());
    cells.extend(stage_and_form_edges());
    cells.extend(order_edges());
    cells.extend(purge_cells::edges());
    cells.extend(ahead_cells::edges());
    cells.extend(asked_cells::edges());
    cells.extend(carried_cells::edges());
    cells.extend(OTHER_EDGES.iter().map(|cell| cell.to_string()));
    cells
}

/// Only files of more than 65,000 bytes meet these: one mark of each layout.
pub fn long_cells() -> Vec<String> {
    let refused =
        ["over 65,536 bytes", "over 65,536 bytes, bad header too", "65,537 bytes of whole records"];
    let layouts = FORMATS.iter().filter(|format| format.rules == Rules::Apart);
    let accepted = layouts.map(|format| format!("{} / ok / 65,536 bytes", format.letters()));
    accepted.chain(refused.map(|how| format!("file / refused 1 / {how}"))).collect()
}

fn file_edges() -> Vec<String> {
    let mut cells = long_cells();
    for how in ["another mark", "one byte", "TM cut short", "ST cut short"] {
        cells.push(format!("file / refused 3 / {how}"));
    }
    cells
}

/// Principals that a header of 16 flags has no room for, the last of 32 and the
/// first that no realm has.
fn principal_edges() -> Vec<String> {
    let mut cells = Vec::new();
    for kind in [0, 3] {
        cells.extend([16, 31].map(|p| format!("TM {kind} / new / L is {p}")));
        cells.push(format!("TM {kind} / refused 6 / L is n, n is 32"));
    }
    for step in [1, 2, 3, 4, 5, 6, 8] {
        let fields: &[&str] = if step == 8 { &["b"] } else { &["a", "b"] };
        for field in fields {
            cells.push(format!("step {step} / ok / {field} above 15"));
            cells.push(format!("step {step} / ok / {field} is 31"));
            if ![3, 4, 5, 6].contains(&step) {
                let cell = format!("step {step} / refused 6 / {field} not present, the first");
                cells.push(cell + ", n is 32");
            }
        }
    }
    cells.push("step 8 / ok / an entry of 31 goes".into());
    for principal in [16, 31] {
        for answer in ["ok", "refused 15"] {
            cells.push(format!("step 10 / {answer} / long-term key of {principal}"));
        }
    }
    cells
}

fn term_edges() -> Vec<String> {
    let mut cells = Vec::new();
    for kind in 0..=6 {
        cells.push(format!("TM {kind} / new / last place"));
        cells.push(format!("TM {kind} / old / full table"));
        cells.push(format!("TM {kind} / old / added by a step"));
        let ways: &[&str] = match kind {
            0 | 3 => &["L is n", "L above n"],
            2 | 4 => &["L is 96", "L above 96"],
            5 => &["L not present", "R not present"],
            6 => &["L not present", "R not present", "R no key"],
            _ => &[],
        };
        cells.extend(ways.iter().map(|way| format!("TM {kind} / refused 6 / {way}")));
        for pair in [(5, 6), (5, 20), (6, 20)] {
            let possible = refusals_of_kind(kind);
            if possible.contains(&pair.0) && possible.contains(&pair.1) {
                cells.push(format!("TM {kind} / refused {} before {}", pair.0, pair.1));
            }
        }
    }
    cells.push("TM 2 / new / L is 95".into());
    cells.push("TM 4 / new / L is 95".into());
    cells.push("TM 5 / new / deeper than 200".into());
    cells.push("TM 6 / new / deeper than 200".into());
    cells
}

/// A step with each number of terms that it can add, and with as many places left
/// where some of them are present.
fn added_edges() -> Vec<String> {
    let mut cells = Vec::new();
    for step in [1, 3, 4, 5] {
        let most = most_added(step, Rules::Apart);
        cells.extend((0..=most).map(|added| format!("step {step} / ok / adds {added}")));
        if most > 1 {
            cells.push(format!("step {step} / ok / last place, some present"));
        }
    }
    cells
}

/// 5 by each unused field, 6 by each used one.
fn input_edges() -> Vec<String> {
    let mut cells = Vec::new();
    for step in 1..=10u8 {
        let used: &[&str] = match step {
            1 | 2 => &["a", "b"],
            3 | 10 => &["m"],
            4..=6 => &["run", "m"],
            7 => &["t"],
            8 => &["b"],
            _ => &["run"],
        };
        for field in ["run", "a", "b", "m", "t"] {
            if !used.contains(&field) {
                cells.push(format!("step {step} / refused 5 / {field}"));
            } else if field != "t" {
                for how in ["the first", "far"] {
                    cells.push(format!("step {step} / refused 6 / {field} not present, {how}"));
                }
            }
        }
        if step <= 2 {
            for how in ["a is 0", "b is 0", "a equals b"] {
                cells.push(format!("step {step} / refused 6 / {how}"));
            }
        }
    }
    cells
}

fn stage_and_form_edges() -> Vec<String> {
    let stages = [
        ("Initiator Opened", 4),
        ("Initiator AfterStep4", 6),
        ("Initiator Done", 0),
        ("Responder Opened", 5),
        ("Responder Done", 0),
        ("Server Done", 9),
    ];
    let mut cells = Vec::new();
    for step in [4, 5, 6, 9] {
        for (stage, taken_by) in stages {
            if taken_by != step {
                cells.push(format!("step {step} / refused 11 / {stage}"));
            }
        }
    }
    let forms = [
        (3, forms::request()),
        (4, forms::reply(Rules::Apart, 1, 2, 0)),
        (5, forms::delivery(1, 2, Some(0))),
        (6, forms::answer(0, 0)),
    ];
    for (step, form) in &forms {
        for misfit in forms::possible_misfits(form, "") {
            // The ticket's K is free; the authenticator's must be the same.
            if misfit != "mLBL another value" {
                cells.push(format!("step {step} / refused 14 / {misfit}"));
            }
        }
    }
    for how in ["a is 0", "b is 0", "a equals b"] {
        cells.push(format!("step 3 / refused 14 / {how}"));
    }
    cells
}

/// Two refusals that apply together, and the first is given. Left out are pairs
/// that cannot be: what a message of the wrong form says (14 with 16 to 22, but
/// step 6 reads the run's own Ts), what a field of the wrong value names (6 with
/// most of the state), 18 with 20, since a remembered Ta was answered with {Ta}K,
/// which is then a term, and 22 with 17, the other side, and with 18, since a Ta
/// is remembered at or below clock + La and the clock does not go back.
fn order_edges() -> Vec<String> {
    let pairs: [(u8, &[(u8, u8)]); 10] = [
        (1, &[(5, 6), (5, 13), (5, 20), (6, 13), (13, 20)]),
        (2, &[(5, 6), (5, 13), (6, 13)]),
        (
            3,
            &[
                (5, 6),
                (5, 13),
                (5, 14),
                (5, 15),
                (6, 13),
                (13, 14),
                (13, 15),
                (13, 20),
                (14, 15),
                (15, 20),
            ],
        ),
        (
            4,
            &[
                (5, 6),
                (5, 11),
                (6, 11),
                (11, 14),
                (11, 15),
                (11, 16),
                (11, 20),
                (14, 15),
                (15, 16),
                (15, 20),
                (16, 20),
            ],
        ),
        (
            5,
            &[
                (5, 6),
                (5, 11),
                (6, 11),
                (11, 14),
                (11, 15),
                (11, 16),
                (11, 17),
                (11, 22),
                (11, 18),
                (11, 19),
                (14, 15),
                (15, 16),
                (15, 17),
                (15, 22),
                (15, 19),
                (15, 20),
                (16, 17),
                (16, 22),
                (16, 18),
                (16, 19),
                (16, 20),
                (17, 18),
                (17, 19),
                (17, 20),
                (22, 19),
                (22, 20),
                (18, 19),
                (19, 20),
            ],
        ),
        (
            6,
            &[(5, 6), (5, 11), (6, 11), (11, 14), (11, 15), (11, 16), (14, 15), (14, 16), (15, 16)],
        ),
        (7, &[(5, 12)]),
        (8, &[(5, 6)]),
        (9, &[(5, 6), (5, 11)]),
        (10, &[(5, 6), (5, 15)]),
    ];
    let cell = |step: u8, (first, second): (u8, u8)| {
        format!("step {step} / refused {first} before {second}")
    };
    pairs.iter().flat_map(|(step, list)| list.iter().map(|pair| cell(*step, *pair))).collect()
}

const OTHER_EDGES: [&str; 77] = [
    "step 1 / ok / run 63",
    "step 2 / ok / run 63",
    "step 3 / ok / run 63",
    "step 1 / ok / last place",
    "step 3 / ok / last place",
    "step 4 / ok / last place",
    "step 5 / ok / last place",
    "step 1 / ok / full table",
    "step 3 / ok / full table",
    "step 4 / ok / full table",
    "step 5 / ok / full table",
    "step 1 / refused 20 / one place short",
    "step 3 / refused 20 / one place short",
    "step 4 / refused 20 / one place short",
    "step 5 / refused 20 / one place short",
    "step 3 / ok / m on the wire",
    "step 3 / ok / m made by the intruder",
    "step 3 / ok / nonce of the intruder",
    "step 3 / ok / nonce of another run",
    "step 4 / ok / m on the wire",
    "step 4 / ok / m made by the intruder",
    "step 4 / ok / key of the intruder",
    "step 4 / ok / key of a server run",
    "step 4 / ok / one tick before Ts + Ls",
    "step 4 / ok / Ts + Ls past 32 bits",
    "step 4 / refused 16 / at the tick",
    "step 5 / ok / both halves on the wire",
    "step 5 / ok / authenticator made by the intruder",
    "step 5 / ok / ticket made by the intruder",
    "step 5 / ok / key of the intruder",
    "step 5 / ok / key of a server run",
    "step 5 / ok / one tick before Ts + Ls",
    "step 5 / ok / Ts + Ls past 32 bits",
    "step 5 / ok / one tick before Ta + La",
    "step 5 / ok / Ta + La past 32 bits",
    "step 5 / ok / last entry",
    "step 5 / ok / an entry differs in b alone",
    "step 5 / ok / an entry differs in K alone",
    "step 5 / ok / an entry differs in Ta alone",
    "step 5 / ok / refused 15 before",
    "step 5 / ok / refused 19 before",
    "step 5 / ok / refused 22 before",
    "step 5 / refused 16 / at the tick",
    "step 5 / refused 17 / at the tick",
    "step 5 / refused 18 / by a run for another a",
    "step 6 / ok / m on the wire",
    "step 6 / ok / m made by the intruder",
    "step 6 / ok / one tick before Ts + Ls",
    "step 6 / ok / Ts + Ls past 32 bits",
    "step 6 / refused 16 / at the tick",
    "step 7 / ok / the same clock",
    "step 7 / ok / the highest clock",
    "step 7 / refused 12 / one less",
    "step 8 / ok / b is 0",
    "step 8 / ok / an entry goes at its tick",
    "step 8 / ok / an entry stays one tick before",
    "step 8 / ok / an entry of another stays, though over",
    "step 8 / ok / an entry stays, its sum past 32 bits",
    "step 9 / ok / again",
    "step 4 / ok / Ts + Ls past 32 bits, the highest clock",
    "step 5 / ok / Ts + Ls past 32 bits, the highest clock",
    "step 5 / ok / Ta + La past 32 bits, the highest clock",
    "step 6 / ok / Ts + Ls past 32 bits, the highest clock",
    "step 8 / ok / an entry stays, its sum past 32 bits, the highest clock",
    "step 10 / refused 15 / nonce 63",
    "step 10 / refused 15 / session key 63",
    "step 10 / refused 15 / the server's long-term key",
    "step 10 / ok / nonce 64",
    "step 10 / ok / session key 64",
    "step 10 / ok / nonce 95",
    "step 10 / ok / session key 95",
    "step 10 / ok / m on the wire",
    "step 10 / ok / m opened by the intruder",
    "step 10 / ok / m made by the intruder",
    "step 10 / ok / deeper than 200",
    "step 10 / refused 15 / a lock, its key alone missing",
    "step 10 / refused 15 / deeper than 200",
];
