//! The cells of the coverage table: what document 01 and its changes make
//! possible.

use reference::marks::FORMATS;
use reference::rules::Rules;

/// The refusals that a step can give, from the input table and the column
/// "steps" of the state table, in their order.
///
/// - 1, 2 and 3 belong to the file and 4 to steps outside 1 to 10.
/// - 10 is given for tables handed in that do not hold together. A walk starts
///   from a new realm and every record keeps the tables sound, so no file
///   reaches it.
/// - 5: every step leaves at least three fields unused.
/// - 6: step 7 names no principal, run or term, so it cannot meet 6.
pub fn refusals_of_step(step: u8) -> &'static [u8] {
    match step {
        1 => &[5, 6, 13, 20],
        2 => &[5, 6, 13],
        3 => &[5, 6, 13, 14, 15, 20],
        4 => &[5, 6, 11, 14, 15, 16, 20],
        5 => &[5, 6, 11, 14, 15, 16, 17, 22, 18, 19, 20],
        6 => &[5, 6, 11, 14, 15, 16],
        7 => &[5, 12],
        8 => &[5, 6],
        9 => &[5, 6, 11],
        10 => &[5, 6, 15],
        _ => &[4],
    }
}

/// How many terms a step adds at most. What stands in m is present, and so are
/// the principals of an initiator run and the key of a server run.
///
/// - 1: a, b, the nonce and two pairs.
/// - 3: K, Ts, three pairs, a's key and the part for a; two pairs, b's key and the
///   ticket. Under H5 the pair of the two too, under H4 that of N and the ticket.
/// - 4: Ta, its pair with a, and the authenticator. Under H5 and H4 the pair of X and
///   that too.
/// - 5: the confirmation.
pub fn most_added(step: u8, rules: Rules) -> usize {
    let carried = usize::from(rules != Rules::Apart);
    match step {
        1 => 5,
        3 => 11 + carried,
        4 => 3 + carried,
        5 => 1,
        _ => 0,
    }
}

/// The refusals that a TM record of a kind can give. Kinds 1, 5 and 6 use both
/// fields, so they cannot meet 5; every time exists, so kind 1 cannot meet 6.
pub fn refusals_of_kind(kind: u8) -> &'static [u8] {
    match kind {
        0 | 2 | 3 | 4 => &[5, 6, 20],
        1 => &[20],
        5 | 6 => &[6, 20],
        _ => &[4],
    }
}

/// The cells for the file, for each kind and for each step.
pub fn main_cells() -> Vec<String> {
    let mut cells: Vec<String> =
        FORMATS.iter().map(|format| format!("{} / ok", format.letters())).collect();
    cells.extend((1..=3).map(|refusal| format!("file / refused {refusal}")));
    for kind in 0..=6 {
        cells.extend(["new", "old"].map(|answer| format!("TM {kind} / {answer}")));
        cells.extend(refusals_of_kind(kind).iter().map(|r| format!("TM {kind} / refused {r}")));
    }
    cells.push("TM other / refused 4".into());
    for step in 1..=10 {
        cells.push(format!("step {step} / ok"));
        cells.extend(refusals_of_step(step).iter().map(|r| format!("step {step} / refused {r}")));
    }
    cells.push("step other / refused 4".into());
    cells
}
