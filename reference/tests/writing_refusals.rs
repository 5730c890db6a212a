//! What the writer turns away, the limits on both sides, and the order.

use reference::file::Header;
use reference::marks::{mark, FORMATS};
use reference::writing::{file_bytes, write};

const TM: u32 = 0x544d;
const ST: u32 = 0x5354;
const N: u32 = 5;
const HEADER: Header = Header {
    mark: mark(b"HD"),
    principals: N as u8,
    flags: 0x12,
    ticket_life: 100,
    authenticator_life: 10,
};
/// Words wider than a field of one byte, two of them with a good low byte.
const WIDE: [u32; 4] = [0x0001_0001, 0x0100_0002, 1 << 31, u32::MAX];

type Words = [u32; 7];

/// A record of each kind that is written, the fields at the ends of their ranges.
fn terms() -> Vec<Words> {
    let ends = [(0, N - 1, 0), (1, 65_535, 65_535), (2, 95, 0), (3, N - 1, 0), (4, 95, 0)];
    let pairs = [(5, 65_535, 65_535), (6, 65_535, 65_535)];
    let zeros = (0..=6).map(|kind| (kind, 0, 0));
    let all = ends.into_iter().chain(pairs).chain(zeros);
    all.map(|(kind, left, right)| [TM, kind, left, right, 0, 0, 0]).collect()
}

/// The same of each step, and which fields it uses: run, a, b, m, t.
fn steps() -> Vec<(Words, [bool; 5])> {
    let (m, t) = (65_535, u32::MAX);
    [
        ([ST, 1, 0, 1, N - 1, 0, 0], "ab"),
        ([ST, 1, 0, N - 1, 1, 0, 0], "ab"),
        ([ST, 2, 0, 1, N - 1, 0, 0], "ab"),
        ([ST, 2, 0, N - 1, 1, 0, 0], "ab"),
        ([ST, 3, 0, 0, 0, m, 0], "m"),
        ([ST, 4, 255, 0, 0, m, 0], "rm"),
        ([ST, 5, 255, 0, 0, m, 0], "rm"),
        ([ST, 6, 255, 0, 0, m, 0], "rm"),
        ([ST, 7, 0, 0, 0, 0, t], "t"),
        ([ST, 8, 0, 0, N - 1, 0, 0], "b"),
        ([ST, 8, 0, 0, 0, 0, 0], "b"),
        ([ST, 9, 255, 0, 0, 0, 0], "r"),
        ([ST, 10, 0, 0, 0, m, 0], "m"),
    ]
    .map(|(words, used)| (words, ['r', 'a', 'b', 'm', 't'].map(|field| used.contains(field))))
    .to_vec()
}

/// The refusal's number; it leaves a buffer as it was. The buffer has room.
fn refusal_under(header: Header, words: &[u32]) -> u8 {
    let length = file_bytes(&header, words);
    let before: Vec<u8> = (0..length + 40).map(|at| (at * 7 + 3) as u8).collect();
    let mut buffer = before.clone();
    match write(&header, words, &mut buffer, 11) {
        Ok(count) => {
            assert_eq!(count, length);
            0
        }
        Err(refusal) => {
            assert!(buffer == before, "{words:?}");
            refusal.number()
        }
    }
}

fn refusal(words: &[u32]) -> u8 {
    refusal_under(HEADER, words)
}

fn with(mut words: Words, field: usize, value: u32) -> Words {
    words[field] = value;
    words
}

#[test]
fn fields_at_their_ends_are_written() {
    for words in terms().into_iter().chain(steps().into_iter().map(|(words, _)| words)) {
        assert_eq!(refusal(&words), 0, "{words:?}");
    }
}

#[test]
fn unknown_marks_give_3() {
    let marks = [0, TM - 1, TM + 1, ST - 1, ST + 1, 0x4844, 0x4d54, 0x544d_0000, TM | 1 << 16];
    for mark in marks.into_iter().chain([ST | 1 << 31, u32::MAX]) {
        assert_eq!(refusal(&[mark, 1, 0, 0, 0, 0, 0]), 3, "{mark:#x}");
        assert_eq!(refusal(&[u32::MAX; 7].map(|_| mark)), 3, "{mark:#x}");
    }
}

#[test]
fn a_list_cut_short_gives_3() {
    for (good, count) in [(terms()[0], 0), (terms()[5], 3), (steps()[0].0, 1)] {
        let list = good.repeat(count);
        assert_eq!(refusal(&list), 0);
        for length in 1..7 {
            for last in [good, terms()[1], [7; 7], with(good, 1, 99)] {
                assert_eq!(refusal(&[&list[..], &last[..length]].concat()), 3);
            }
        }
    }
}

#[test]
fn kinds_and_steps_that_do_not_exist_give_4() {
    for kind in [7, 8, 10, 255, 256, 257, 262, 65_536].into_iter().chain(WIDE) {
        assert_eq!(refusal(&[TM, kind, 1, 1, 0, 0, 0]), 4, "{kind}");
        assert_eq!(refusal(&[TM, kind, u32::MAX, u32::MAX, 0, 0, 0]), 4, "{kind}");
    }
    for step in [0, 11, 12, 255, 256, 257, 266, 65_536].into_iter().chain(WIDE) {
        assert_eq!(refusal(&[ST, step, 0, 0, 0, 0, 0]), 4, "{step}");
        assert_eq!(refusal(&[ST, step, 9, 9, 9, 9, 9]), 4, "{step}");
        assert_eq!(refusal(&[ST, step, 256, 256, 256, 65_536, 9]), 4, "{step}");
    }
}

#[test]
fn unused_fields_that_are_not_0_give_5() {
    for value in [1, 255, 256, 65_535, 65_536].into_iter().chain(WIDE) {
        for words in terms().into_iter().filter(|words| [0, 2, 3, 4].contains(&words[1])) {
            assert_eq!(refusal(&with(words, 3, value)), 5, "{words:?} {value}");
        }
        for (words, used) in steps() {
            for field in (0..5).filter(|field| !used[*field]) {
                assert_eq!(refusal(&with(words, field + 2, value)), 5, "{words:?} {field} {value}");
            }
        }
    }
}

#[test]
fn an_unused_field_comes_before_one_out_of_range() {
    for kind in [0, 2, 3, 4] {
        assert_eq!(refusal(&[TM, kind, 96, 1, 0, 0, 0]), 5);
        assert_eq!(refusal(&[TM, kind, u32::MAX, u32::MAX, 0, 0, 0]), 5);
    }
    for (words, used) in steps() {
        let wide: Vec<u32> = used.iter().map(|used| if *used { u32::MAX } else { 0 }).collect();
        let words = [&words[..2], &wide].concat();
        for field in (0..5).filter(|field| !used[*field]) {
            let mut words = words.clone();
            words[field + 2] = 1;
            assert_eq!(refusal(&words), 5, "{words:?}");
        }
    }
}

#[test]
fn operands_out_of_range_give_6() {
    for (kind, first) in [(0, N), (3, N), (2, 96), (4, 96), (1, 65_536), (5, 65_536), (6, 65_536)] {
        for left in [first, first + 1, 65_536, 65_537].into_iter().chain(WIDE) {
            assert_eq!(refusal(&[TM, kind, left, 0, 0, 0, 0]), 6, "{kind} {left}");
        }
        assert_eq!(refusal(&[TM, kind, first - 1, 0, 0, 0, 0]), 0);
    }
    for kind in [1, 5, 6] {
        for right in [65_536, 65_537].into_iter().chain(WIDE) {
            assert_eq!(refusal(&[TM, kind, 0, right, 0, 0, 0]), 6, "{kind} {right}");
        }
    }
}

/// Step 7 has no such field: every t is written.
#[test]
fn used_fields_out_of_range_give_6() {
    let firsts = [256, N, N, 65_536];
    for (words, used) in steps() {
        for field in (0..4).filter(|field| used[*field]) {
            let first = firsts[field];
            for value in [first, first + 1, 65_536, 65_537].into_iter().chain(WIDE) {
                assert_eq!(refusal(&with(words, field + 2, value)), 6, "{words:?} {field} {value}");
            }
        }
    }
    for step in [1, 2] {
        for (a, b) in [(0, 1), (1, 0), (0, 0), (1, 1), (N - 1, N - 1), (N, N)] {
            assert_eq!(refusal(&[ST, step, 0, a, b, 0, 0]), 6, "{step} {a} {b}");
        }
    }
    assert_eq!(refusal(&[ST, 7, 0, 0, 0, 0, 0]), 0);
}

/// The header of the call decides which parties there are.
#[test]
fn parties_are_those_of_the_header() {
    let counts = |most| 3..=most;
    let all = FORMATS.iter().flat_map(|f| counts(f.most_principals).map(|n| (f.mark, n)));
    for (mark, n) in all {
        let header = Header { mark, principals: n, flags: 0, ..HEADER };
        let n = u32::from(n);
        for (words, field) in [([TM, 0, 0, 0, 0, 0, 0], 2), ([TM, 3, 0, 0, 0, 0, 0], 2)]
            .into_iter()
            .chain([([ST, 1, 0, 0, 1, 0, 0], 3), ([ST, 2, 0, 1, 0, 0, 0], 4)])
            .chain([([ST, 8, 0, 0, 0, 0, 0], 4)])
        {
            assert_eq!(refusal_under(header, &with(words, field, n - 1)), 0);
            assert_eq!(refusal_under(header, &with(words, field, n)), 6);
        }
    }
}

fn bad_headers() -> Vec<Header> {
    let mut headers: Vec<Header> =
        [0, 1, 2, 17, 18, 255].map(|principals| Header { principals, ..HEADER }).into();
    headers.extend([1, 1 << 5, 1 << 6, 1 << 15].map(|flags| Header { flags, ..HEADER }));
    headers.push(Header { ticket_life: 0, ..HEADER });
    headers.push(Header { authenticator_life: 0, ..HEADER });
    headers
}

#[test]
fn headers_are_looked_at_as_in_reading() {
    for header in bad_headers() {
        assert_eq!(refusal_under(header, &[]), 2, "{header:?}");
        assert_eq!(refusal_under(header, &terms().concat()), 2, "{header:?}");
    }
    let most = u32::MAX;
    for (principals, flags) in [(3, 6), (16, 0xfffe), (15, 0x7ffe)] {
        let header =
            Header { principals, flags, ticket_life: most, authenticator_life: 1, ..HEADER };
        assert_eq!(refusal_under(header, &[]), 0);
        assert_eq!(
            refusal_under(Header { ticket_life: 1, authenticator_life: most, ..header }, &[]),
            0
        );
    }
}

/// One record for each of 3 to 6.
fn refused_records() -> [(u8, Vec<u32>); 5] {
    [
        (3, vec![0; 7]),
        (4, vec![TM, 7, 0, 0, 0, 0, 0]),
        (4, vec![ST, 11, 0, 0, 0, 0, 0]),
        (5, vec![ST, 7, 1, 0, 0, 0, 0]),
        (6, vec![TM, 0, N, 0, 0, 0, 0]),
    ]
}

#[test]
fn a_bad_header_comes_before_records() {
    for header in bad_headers() {
        for (_, record) in refused_records() {
            assert_eq!(refusal_under(header, &record), 2);
        }
        assert_eq!(refusal_under(header, &[TM]), 2);
    }
}

#[test]
fn the_first_refused_record_decides() {
    for (number, record) in refused_records() {
        for (_, later) in refused_records() {
            let list = [&terms().concat()[..], &record, &terms()[1], &later, &[ST]].concat();
            assert_eq!(refusal(&list), number);
        }
    }
}

/// So many TM and ST records, and the words that follow.
fn list(terms: usize, steps: usize, rest: &[u32]) -> Vec<u32> {
    let terms = [TM, 1, 9, 9, 8, 8, 8].repeat(terms);
    let steps = [ST, 7, 0, 0, 0, 0, 9].repeat(steps);
    [&terms[..], &steps, rest].concat()
}

#[test]
fn files_of_more_than_65536_bytes_give_1() {
    // 13 + 7 * 9 + 12 * 5,455 = 65,536 and 13 + 7 * 4 + 12 * 5,458 = 65,537.
    assert_eq!(file_bytes(&HEADER, &list(9, 5_455, &[])), 65_536);
    assert_eq!(refusal(&list(9, 5_455, &[])), 0);
    assert_eq!(file_bytes(&HEADER, &list(4, 5_458, &[])), 65_537);
    assert_eq!(refusal(&list(4, 5_458, &[])), 1);
    assert_eq!(refusal(&list(0, 5_460, &[])), 0);
    assert_eq!(refusal(&list(0, 5_461, &[])), 1);
    assert_eq!(refusal(&list(9_360, 0, &[])), 0);
    assert_eq!(refusal(&list(9_361, 0, &[])), 1);
    assert_eq!(refusal(&list(9, 5_456, &[])), 1);
}

/// A record of an unknown mark and one cut short count no bytes.
#[test]
fn broken_records_do_not_make_a_file_longer() {
    for (number, rest) in [(3, vec![0; 7_000]), (3, vec![TM, 1, 0]), (3, vec![ST])] {
        assert_eq!(refusal(&list(9, 5_455, &rest)), number);
        assert_eq!(refusal(&list(4, 5_458, &rest)), 1);
    }
    assert_eq!(refusal(&[0; 70_000]), 3);
}

#[test]
fn a_long_file_comes_before_all_else() {
    for (_, record) in refused_records() {
        let list = [record, list(0, 5_461, &[])].concat();
        assert_eq!(refusal(&list), 1);
        for header in bad_headers() {
            assert_eq!(refusal_under(header, &list), 1);
            assert_eq!(write(&header, &list, &mut [], usize::MAX).unwrap_err().number(), 1);
        }
    }
}

/// 21 is looked at last.
#[test]
fn no_room_comes_after_all_else() {
    for at in [0, 1, usize::MAX] {
        for (number, record) in refused_records() {
            assert_eq!(write(&HEADER, &record, &mut [], at).unwrap_err().number(), number);
        }
        for header in bad_headers() {
            assert_eq!(write(&header, &[], &mut [], at).unwrap_err().number(), 2);
        }
        assert_eq!(write(&HEADER, &[TM], &mut [], at).unwrap_err().number(), 3);
        assert_eq!(write(&HEADER, &[], &mut [], at).unwrap_err().number(), 21);
    }
}
