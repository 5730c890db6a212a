//! The cells of headers: for each mark, the limits that it accepts and the ways
//! in which it is refused.

use reference::file::{header_values, read_header, Header, MAX_FILE_BYTES};
use reference::marks::{format_at, format_of, letters, Format, FORMATS, MIN_PRINCIPALS};
use reference::refusal::Refusal;

/// The ends of n under one mark or another, and the numbers beside them.
const COUNTS: [u8; 6] = [2, 3, 16, 17, 32, 33];
/// The highest flags of either width, and the first that HD has no room for.
const FLAGS: [u32; 3] = [15, 16, 31];

fn takes(format: &Format, n: u8) -> bool {
    (MIN_PRINCIPALS..=format.most_principals).contains(&n)
}

/// In which ways a header is accepted.
pub fn accepted_hows(format: &Format) -> Vec<String> {
    let counts = COUNTS.into_iter().filter(|n| takes(format, *n)).map(|n| format!("n is {n}"));
    let flags = FLAGS.into_iter().filter(|flag| *flag < format.most_principals.into());
    counts.chain(flags.map(|flag| format!("flag {flag}"))).collect()
}

/// Those of an accepted header.
pub fn accepted_ways(header: &Header) -> Vec<String> {
    let Some(format) = format_of(header.mark) else { return Vec::new() };
    let mut hows = vec![format!("n is {}", header.principals)];
    let set = FLAGS.into_iter().filter(|flag| header.flags >> flag & 1 == 1);
    hows.extend(set.map(|flag| format!("flag {flag}")));
    hows.retain(|how| accepted_hows(format).contains(how));
    hows
}

/// In which ways 2 can be given, with so many flags.
pub fn refused_hows(format: &Format, flags: usize) -> Vec<String> {
    let counts = COUNTS.into_iter().filter(|n| !takes(format, *n)).map(|n| format!("n is {n}"));
    let mut hows: Vec<String> = counts.collect();
    hows.extend(["flag on 0", "flag at n", "flag above n", "Ls is 0", "La is 0"].map(String::from));
    for flag in FLAGS.into_iter().filter(|flag| (*flag as usize) < flags) {
        if takes(format, flag as u8) {
            hows.push(format!("flag {flag} at n"));
        }
        hows.push(format!("flag {flag} above n"));
    }
    hows.into_iter().map(|how| format!("{}, {how}", format.letters())).collect()
}

/// In which ways a header is refused with 2, if one condition of it holds alone.
pub fn refused_ways(header: &Header) -> Vec<String> {
    let Some(format) = format_of(header.mark) else { return Vec::new() };
    let (n, flags) = (header.principals, header.flags);
    let above = if takes(format, n) { u64::from(flags) >> n } else { 0 };
    let conditions = [
        (!takes(format, n), format!("n is {n}")),
        (flags & 1 == 1, "flag on 0".into()),
        (above != 0, if above & 1 == 1 { "flag at n" } else { "flag above n" }.into()),
        (header.ticket_life == 0, "Ls is 0".into()),
        (header.authenticator_life == 0, "La is 0".into()),
    ];
    let hold: Vec<&String> = conditions.iter().filter(|(is, _)| *is).map(|(_, how)| how).collect();
    let [how] = hold[..] else { return Vec::new() };
    let mut hows = vec![how.clone()];
    if above.is_power_of_two() {
        let flag = above.trailing_zeros() + u32::from(n);
        hows.push(how.replace("flag", &format!("flag {flag}")));
    }
    let under = |how: String| format!("{}, {how}", letters(header.mark));
    let mut hows: Vec<String> = hows.into_iter().map(under).collect();
    hows.retain(|how| refused_hows(format, 32).contains(how));
    hows
}

/// All edges of headers in files, but for those of long files.
pub fn edges() -> Vec<String> {
    let mut cells = Vec::new();
    for how in ["empty", "one byte", "another mark"] {
        cells.push(format!("file / refused 1 / {how}"));
    }
    for format in &FORMATS {
        let letters = format.letters();
        cells.extend(accepted_hows(format).iter().map(|how| format!("{letters} / ok / {how}")));
        cells.push(format!("{letters} / ok / nothing follows"));
        for how in ["cut short", "cut short by one byte", "cut short by two bytes"] {
            cells.push(format!("file / refused 1 / {letters}, {how}"));
        }
        let refused = refused_hows(format, 8 * format.flag_bytes);
        cells.extend(refused.iter().map(|how| format!("file / refused 2 / {how}")));
        cells.push(format!("file / refused 3 / second {letters}"));
    }
    cells
}

/// The cells of a file with a good header.
pub fn accepted(file: &[u8], header: &Header, rest: &[u8]) -> Vec<String> {
    let subject = format!("{} / ok", letters(header.mark));
    let mut hows = accepted_ways(header);
    if rest.is_empty() {
        hows.push("nothing follows".into());
    }
    if file.len() == MAX_FILE_BYTES {
        hows.push("65,536 bytes".into());
    }
    let mut cells: Vec<String> = hows.iter().map(|how| format!("{subject} / {how}")).collect();
    cells.push(subject);
    cells
}

/// The cells of a file that is refused for its header or its length.
pub fn refused(file: &[u8], refusal: Refusal) -> Vec<String> {
    let hows = match header_values(file) {
        Ok((header, _)) => refused_ways(&header),
        Err(_) => no_header_ways(file),
    };
    let subject = format!("file / refused {}", refusal.number());
    let mut cells: Vec<String> = hows.iter().map(|how| format!("{subject} / {how}")).collect();
    cells.push(subject);
    cells
}

fn no_header_ways(file: &[u8]) -> Vec<String> {
    let over = "over 65,536 bytes".to_string();
    match file {
        [] => vec!["empty".into()],
        [_] => vec!["one byte".into()],
        _ if file.len() > MAX_FILE_BYTES => {
            let good_header = read_header(&file[..MAX_FILE_BYTES]).is_ok();
            match (good_header, file.len() == MAX_FILE_BYTES + 1) {
                (false, _) => vec![over.clone(), over + ", bad header too"],
                (true, true) => vec![over, "65,537 bytes of whole records".into()],
                (true, false) => vec![over],
            }
        }
        _ => match format_at(file) {
            None => vec!["another mark".into()],
            Some(format) => cut_short_ways(format, file.len()),
        },
    }
}

fn cut_short_ways(format: &Format, length: usize) -> Vec<String> {
    let cut = format!("{}, cut short", format.letters());
    match format.header_bytes() - length {
        1 => vec![cut.clone(), cut + " by one byte"],
        2 => vec![cut.clone(), cut + " by two bytes"],
        _ => vec![cut],
    }
}
