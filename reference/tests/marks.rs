//! The marks of headers: their layouts, their limits of n, and the flags of 32
//! principals, in reading, listing, writing and tables handed in.

mod common;

use common::{check, record, walk};
use reference::file::{read_header, Header, Record, Settings, StepRecord};
use reference::listing;
use reference::marks::{format_of, mark, FORMATS};
use reference::realm::Answer;
use reference::refusal::Refusal;
use reference::tables::Tables;
use reference::writing::{file_bytes, rewrite, words, write};

const HD: u16 = mark(b"HD");
const HW: u16 = mark(b"HW");
/// The marks with the layout and the limits of HW.
const WIDE: [&str; 3] = ["HW", "H5", "H4"];
const HEADER: Header =
    Header { mark: HW, principals: 32, flags: 0, ticket_life: 100, authenticator_life: 10 };

/// The listing's first line; a file that it refuses is not written again either.
fn first_line(header: &str) -> String {
    let file = record(header);
    let listing = listing(&file);
    let line = listing.lines().next().unwrap().to_string();
    let refused =
        rewrite(&file).err().map(|refusal| format!("0 file refused {}", refusal.number()));
    assert_eq!(refused.unwrap_or(line.clone()), line, "{header}");
    line
}

#[test]
fn the_table_has_the_marks_of_the_paper() {
    let rows =
        FORMATS.map(|f| (f.letters(), f.header_bytes(), f.most_principals, f.rules.number()));
    let expected = [("HD", 13, 16, 0), ("HW", 15, 32, 0), ("H5", 15, 32, 1), ("H4", 15, 32, 2)];
    let row = |(letters, bytes, most, rules): (&str, _, _, _)| (letters.into(), bytes, most, rules);
    assert_eq!(rows, expected.map(row));
    assert_eq!(FORMATS.map(|format| format.mark), [0x4844, 0x4857, 0x4835, 0x4834]);
    assert_eq!(format_of(HW).map(|format| format.flag_bytes), Some(4));
    assert_eq!([mark(b"HX"), mark(b"WH"), mark(b"H6"), 0].map(format_of), [None; 4]);
}

#[test]
fn a_wide_header_has_its_flags_in_four_bytes() {
    let (ticket_life, authenticator_life) = (0x0506_0708, 0x090a_0b0c);
    let expected = Header { flags: 0x8102_0304, ticket_life, authenticator_life, ..HEADER };
    for letters in WIDE {
        let mut header = *b"HW\x20\x81\x02\x03\x04\x05\x06\x07\x08\x09\x0a\x0b\x0c";
        header[..2].copy_from_slice(letters.as_bytes());
        let expected = Header { mark: mark(header.first_chunk().unwrap()), ..expected };
        let (read, rest) = read_header(&header).unwrap();
        assert_eq!((read, rest.len()), (expected, 0));
        let lines = format!("0 {letters} ok\nend runs 0 wire 0 cache 0 clock 0\n");
        assert_eq!(listing(&header), lines);
        let mut buffer = [7; 17];
        assert_eq!(write(&expected, &[], &mut buffer, 1), Ok(15));
        assert_eq!((&buffer[1..16], buffer[0], buffer[16]), (&header[..], 7, 7));
    }
}

#[test]
fn each_mark_has_its_own_limit_of_n() {
    for (letters, most) in [("HD", 16), ("HW", 32), ("H5", 32), ("H4", 32)] {
        for n in 0..=255 {
            let expected = match n {
                3.. if n <= most => format!("0 {letters} ok"),
                _ => "0 file refused 2".to_string(),
            };
            assert_eq!(first_line(&format!("{letters} n={n} Ls=1 La=1")), expected, "n is {n}");
        }
    }
}

/// Flags on 0 and at n and above give 2, for each n and each flag alone.
#[test]
fn flags_are_below_n_and_not_on_the_server() {
    for format in &FORMATS {
        let letters = format.letters();
        for n in 3..=format.most_principals {
            for flag in 0..8 * format.flag_bytes as u8 {
                let line = first_line(&format!("{letters} n={n} flags={} Ls=1 La=1", 1u32 << flag));
                let passes = 0 < flag && flag < n;
                let expected =
                    if passes { format!("0 {letters} ok") } else { "0 file refused 2".into() };
                assert_eq!(line, expected, "{letters} n={n}, flag {flag}");
            }
        }
    }
    assert_eq!(first_line("HW n=32 flags=0xfffffffe Ls=1 La=1"), "0 HW ok");
    assert_eq!(first_line("HW n=32 flags=0xffffffff Ls=1 La=1"), "0 file refused 2");
    assert_eq!(first_line("HW n=31 flags=0xfffffffe Ls=1 La=1"), "0 file refused 2");
    assert_eq!(first_line("HW n=32 flags=0xfffffffe Ls=0 La=1"), "0 file refused 2");
    assert_eq!(first_line("HW n=32 flags=0xfffffffe Ls=1 La=0"), "0 file refused 2");
}

#[test]
fn a_wide_header_cut_short_gives_1() {
    for letters in WIDE {
        for values in ["n=17 Ls=1 La=1", "n=2"] {
            let header = record(&format!("{letters} {values}"));
            for length in 1..15 {
                assert_eq!(listing(&header[..length]), "0 file refused 1\n", "{length}");
            }
        }
    }
}

/// A mark in the place of the other: the fields are then other bytes.
#[test]
fn a_mark_flipped_is_read_by_its_own_layout() {
    let flipped = |header: &str, letters: &[u8; 2]| {
        let mut file = record(header);
        file[..2].copy_from_slice(letters);
        file
    };
    let wide = flipped("HD n=3 flags=0 Ls=0x00020000 La=0x00010000", b"HW");
    assert_eq!(listing(&wide), "0 file refused 1\n");
    let longer = [wide, vec![0; 2]].concat();
    assert_eq!(longer, record("HW n=3 flags=2 Ls=1 La=0"));
    assert_eq!(listing(&longer), "0 file refused 2\n");
    let narrow = flipped("HW n=3 flags=2 Ls=0x00010002 La=0x00030004", b"HD");
    let expected = [record("HD n=3 flags=0 Ls=0x00020001 La=0x00020003"), vec![0, 4]].concat();
    assert_eq!(narrow, expected);
    let lines = "0 HD ok\n1 file refused 3\nend runs 0 wire 0 cache 0 clock 0\n";
    assert_eq!(listing(&narrow), lines);
}

#[test]
fn a_second_header_of_any_mark_gives_3() {
    let header = |letters: &String| record(&format!("{letters} n=3 Ls=1 La=1"));
    let letters = FORMATS.map(|format| format.letters());
    for first in &letters {
        for second in letters.iter().map(header).chain([record("HW n=2")]) {
            let file = [header(first), record("ST 7 t=1"), second].concat();
            let expected = format!("0 {first} ok\n1 ST ok - +0\n2 file refused 3\n");
            assert_eq!(listing(&file), expected + "end runs 0 wire 0 cache 0 clock 1\n");
        }
    }
}

/// "its 16 flags are the low ones": every header that both marks allow gives the
/// same lines but the first.
#[test]
fn the_flags_of_either_mark_are_the_same_principals() {
    for flags in [0, 2, 6, 1 << 15, 0xfffe] {
        let records = (1..16).map(|p| format!("TM 3 L={p}\nST 10 m={}\n", p - 1));
        let records: String = records.chain(["ST 1 a=14 b=15\nST 3 m=19".into()]).collect();
        let [narrow, wide] = ["HD", "HW"].map(|letters| {
            listing(&walk(&format!("{letters} n=16 flags={flags} Ls=9 La=9\n{records}")))
        });
        assert_eq!(narrow.replacen("HD", "HW", 1), wide);
        let bad = wide.matches("ST ok - +0\n").count();
        assert_eq!(bad as u32, u32::count_ones(flags), "{flags:#x}");
    }
}

/// All of 32 principals: terms, keys of the bad ones, runs, and the first that is
/// not there.
#[test]
fn principals_up_to_31_take_part() {
    check(
        "HW n=32 flags=0x80010000 Ls=9 La=9 => ok
         TM 0 L=31       => 0 new
         TM 0 L=32       => refused 6
         TM 3 L=16       => 1 new
         TM 3 L=17       => 2 new
         TM 3 L=30       => 3 new
         TM 3 L=31       => 4 new
         TM 3 L=32       => refused 6
         ST 10 m=1       => ok - +0
         ST 10 m=2       => refused 15
         ST 10 m=3       => refused 15
         ST 10 m=4       => ok - +0
         ST 1 a=30 b=31  => ok 0 +4
         ST 1 a=31 b=30  => ok 1 +3
         ST 1 a=31 b=31  => refused 6
         ST 1 a=32 b=31  => refused 6
         ST 2 a=17 b=32  => refused 6
         ST 2 a=17 b=31  => ok 2 +0
         ST 8 b=31       => ok - +0
         ST 8 b=32       => refused 6",
    );
    check("HW n=31 Ls=9 La=9 => ok\nST 1 a=30 b=31 => refused 6\nST 1 a=29 b=30 => ok 0 +5");
}

/// An exchange of 30 and 31 from end to end, and a replay.
#[test]
fn the_last_two_principals_agree() {
    check(
        "HW n=32 Ls=100 La=10 => ok
         ST 1 a=30 b=31  => ok 0 +5
         ST 3 m=4        => ok 1 +11
         ST 4 run=0 m=11 => ok 0 +1
         ST 2 a=30 b=31  => ok 2 +0
         TM 5 L=15 R=16  => 17 new
         ST 5 run=2 m=17 => ok 2 +1
         ST 6 run=0 m=18 => ok 0 +0
         ST 2 a=30 b=31  => ok 3 +0
         ST 5 run=3 m=17 => refused 18
         end runs 4 wire 5 cache 1 clock 0",
    );
}

/// The refusal's number, of a buffer with room.
fn refusal(header: Header, words: &[u32]) -> u8 {
    write(&header, words, &mut vec![0; 70_000], 5).map_or_else(Refusal::number, |_| 0)
}

#[test]
fn a_writer_has_the_limits_of_the_mark() {
    for (mark, most) in [(HD, 16), (HW, 32), (mark(b"H5"), 32), (mark(b"H4"), 32)] {
        for principals in [2, 3, 15, 16, 17, 31, 32, 33, 255] {
            let expected = if (3..=most).contains(&principals) { 0 } else { 2 };
            let header = Header { mark, principals, ..HEADER };
            assert_eq!(refusal(header, &[]), expected, "{header:?}");
        }
        if mark == HD {
            continue;
        }
        for (principals, flag, expected) in [(32, 31, 0), (32, 0, 2), (31, 31, 2), (31, 30, 0)] {
            let header = Header { mark, principals, flags: 1 << flag, ..HEADER };
            assert_eq!(refusal(header, &[]), expected, "{header:?}");
        }
    }
}

/// Under HD a flag at 16 or above is at n or above.
#[test]
fn flags_that_do_not_fit_into_two_bytes_give_2() {
    let header = Header { mark: HD, principals: 16, ..HEADER };
    for flag in 16..32 {
        assert_eq!(refusal(Header { flags: 1 << flag, ..header }, &[]), 2);
        assert_eq!(refusal(Header { flags: 1 << flag | 2, ..header }, &[]), 2);
    }
    assert_eq!(refusal(Header { flags: 0xfffe, ..header }, &[]), 0);
}

/// Another mark comes before the header's values, the records and the room; its
/// header counts no bytes.
#[test]
fn a_writer_refuses_another_mark_with_1() {
    let beside = [HD - 1, HD + 1, HW - 1, HW + 1, mark(b"H3"), mark(b"H6")];
    for mark in [&beside[..], &[0, 0x4448, 0x544d, 0x5354, u16::MAX]].concat() {
        let header = Header { mark, ..HEADER };
        assert_eq!(file_bytes(&header, &[]), 0);
        assert_eq!(file_bytes(&header, &[0x5354, 7, 0, 0, 0, 0, 0]), 12);
        for header in [header, Header { principals: 2, ticket_life: 0, ..header }] {
            for words in [&[][..], &[0], &[0x544d, 9, 0, 0, 0, 0, 0]] {
                assert_eq!(refusal(header, words), 1, "{mark:#x}");
                assert_eq!(write(&header, words, &mut [], 9), Err(Refusal::NoHeader));
            }
        }
    }
}

/// 15 + 7 * 7 + 12 * 5,456 = 65,536 and 15 + 7 * 2 + 12 * 5,459 = 65,537, of
/// which HD takes two bytes less.
#[test]
fn the_longest_file_counts_the_header_of_its_mark() {
    let list = [[0x544d, 1, 9, 9, 0, 0, 0].repeat(7), [0x5354, 7, 0, 0, 0, 0, 9].repeat(5_456)];
    let list = list.concat();
    assert_eq!(file_bytes(&HEADER, &list), 65_536);
    assert_eq!(refusal(HEADER, &list), 0);
    let one_over = [[0x544d, 1, 9, 9, 0, 0, 0].repeat(2), [0x5354, 7, 0, 0, 0, 0, 9].repeat(5_459)];
    let one_over = one_over.concat();
    assert_eq!(file_bytes(&HEADER, &one_over), 65_537);
    assert_eq!(refusal(HEADER, &one_over), 1);
    assert_eq!(refusal(Header { mark: HD, principals: 16, ..HEADER }, &one_over), 0);
}

#[test]
fn wide_files_are_written_as_they_were() {
    for letters in WIDE {
        let records = "ST 2 a=31 b=30\nTM 3 L=31";
        let file = walk(&format!("{letters} n=32 flags=0x80000002 Ls=9 La=9\n{records}"));
        assert_eq!(rewrite(&file), Ok(file.clone()));
        let (header, rest) = read_header(&file).unwrap();
        assert_eq!(rest.len(), 19);
        let (records, _) = reference::file::read_records(rest);
        let mut buffer = vec![7; file.len()];
        assert_eq!(write(&header, &words(&records), &mut buffer, 0), Ok(file.len()));
        assert_eq!(buffer, file);
    }
}

/// Tables handed in: n to 32 in every realm, whatever its mark was.
#[test]
fn tables_have_the_widest_limit() {
    let call = |principals: u8, flags: u32, record: StepRecord| {
        let settings = Settings { principals, flags, ..HEADER.settings() };
        let mut tables = Tables::empty(settings);
        tables.call(&Record::Step(record))
    };
    let tick = StepRecord { step: 7, time: 1, ..StepRecord::default() };
    for (principals, flags) in [(3, 6), (16, 0), (17, 1 << 16), (31, 1 << 30), (32, 1 << 31)] {
        assert_eq!(
            call(principals, flags, tick),
            Ok(Answer::Step { run: None, added: 0 }),
            "{principals} {flags:#x}"
        );
    }
    for (principals, flags) in [(2, 0), (33, 0), (255, 0), (31, 1 << 31), (32, 1), (16, 1 << 16)] {
        let answer = call(principals, flags, tick);
        assert_eq!(answer, Err(Refusal::BrokenTables), "{principals} {flags:#x}");
    }
    let opens = StepRecord { step: 1, a: 30, b: 31, ..StepRecord::default() };
    assert_eq!(call(32, 0, opens), Ok(Answer::Step { run: Some(0), added: 5 }));
    assert_eq!(call(31, 0, opens), Err(Refusal::BadReference));
}
