//! The text form in numbers: what is read, what is written, and that the two agree.

use pogandir::faults::Fault;
use pogandir::plain::lines;
use pogandir::record::split;
use pogandir::script::read;

fn hex(text: &str) -> Vec<u8> {
    let digits: String = text.split_whitespace().collect();
    (0..digits.len())
        .step_by(2)
        .map(|at| u8::from_str_radix(&digits[at..at + 2], 16).unwrap())
        .collect()
}

fn bytes(text: &str) -> Vec<u8> {
    let script = read("text", text);
    assert!(!script.is_faulty(), "{text}: {:?}", script.faults);
    script.listed.bytes
}

fn errors(text: &str) -> Vec<Fault> {
    read("text", text).faults.into_iter().filter(Fault::is_error).collect()
}

#[test]
fn texts_have_their_bytes() {
    let zeros = |count: usize| " 00".repeat(count);
    let header = "48 44 03 00 00 00 00 00 64 00 00 00 0a";
    let cases = [
        ("", String::new()),
        ("# only a comment\n\n", String::new()),
        ("HD n=3 flags=0 Ls=100 La=10", header.to_string()),
        (
            "HD n=3 flags=0x8002 Ls=0xffffffff La=1",
            "48 44 03 80 02 ff ff ff ff 00 00 00 01".to_string(),
        ),
        ("HD", format!("48 44{}", zeros(11))),
        (
            "HW n=25 flags=0x01000000 Ls=100 La=10",
            "48 57 19 01 00 00 00 00 00 00 64 00 00 00 0a".to_string(),
        ),
        (
            "HW n=32 flags=0xfffffffe La=1",
            "48 57 20 ff ff ff fe 00 00 00 00 00 00 00 01".to_string(),
        ),
        ("HW", format!("48 57{}", zeros(13))),
        (
            "H5 n=25 flags=0x01000000 Ls=100 La=10",
            "48 35 19 01 00 00 00 00 00 00 64 00 00 00 0a".to_string(),
        ),
        ("H4", format!("48 34{}", zeros(13))),
        ("HW n=3 flags=2\nST 9", format!("48 57 03 00 00 00 02{} 53 54 09{}", zeros(8), zeros(9))),
        ("TM 5 L=15 R=16", "54 4d 05 00 0f 00 10".to_string()),
        ("TM 1 R=65535 L=1", "54 4d 01 00 01 ff ff".to_string()),
        ("TM 255", format!("54 4d ff{}", zeros(4))),
        ("ST 1 a=1 b=2", format!("53 54 01 00 01 02{}", zeros(6))),
        ("  ST 5 run=2 m=17  # deliver", "53 54 05 02 00 00 00 11 00 00 00 00".to_string()),
        ("ST 7 t=4294967295", "53 54 07 00 00 00 00 00 ff ff ff ff".to_string()),
        ("raw 48 44 Ff", "48 44 ff".to_string()),
        ("ST 9\r\nraw 00\r\n", format!("53 54 09{} 00", zeros(9))),
        ("ST 9\rraw 00\r", format!("53 54 09{} 00", zeros(9))),
        // what people write
        ("\u{feff}HD n=3 flags=0 Ls=100 La=10", header.to_string()),
        ("HD N = 3 FLAGS= 0 LS =100 la=10", header.to_string()),
        ("hd n=3 Ls=100 La=10", header.to_string()),
        ("ST 1 A=1 B=2", format!("53 54 01 00 01 02{}", zeros(6))),
        ("st 1\ta=1\tb=2", format!("53 54 01 00 01 02{}", zeros(6))),
        ("TM 5 l=15 r=16 => refused", "54 4d 05 00 0f 00 10".to_string()),
    ];
    for (text, expected) in cases {
        assert_eq!(bytes(text), hex(&expected), "{text}");
    }
}

#[test]
fn faults_name_line_column_field_and_what_is_allowed() {
    let cases = [
        ("HX n=3", 1, 1, "this is no sentence"),
        (
            "HD flags=0x10000",
            1,
            10,
            "flags: 0x10000 does not fit in 2 bytes; 0 to 65535 is allowed",
        ),
        ("HW flags=0x100000000", 1, 10, "flags: 0x100000000 does not fit in 4 bytes"),
        ("H5 flags=0x100000000", 1, 10, "flags: 0x100000000 does not fit in 4 bytes"),
        ("h5 n=3", 1, 1, "this is no sentence"),
        ("HW 3", 1, 4, "'3' is not of the form field=number"),
        ("HW L=3", 1, 4, "HW has no field 'L'; it has n, flags, Ls, La"),
        ("\n\nTM", 3, 3, "TM needs its kind first"),
        ("ST a=1", 1, 4, "ST needs its step first"),
        ("ST 1 c=1", 1, 6, "ST has no field 'c'; it has run, a, b, m, t"),
        ("ST 1 step=1", 1, 6, "ST has no field 'step'"),
        ("ST 1 a=1 A=1", 1, 10, "field 'a' stands twice"),
        ("ST 1 a", 1, 6, "'a' is not of the form field=number"),
        ("ST 1 a=", 1, 8, "a: '' is no number; 0 to 255 is allowed"),
        ("ST 1 a=0x", 1, 8, "a: '0x' is no number"),
        ("ST 1 a=-1", 1, 8, "a: '-1' is no number"),
        ("ST 1 a=1_0", 1, 8, "a: '1_0' is no number"),
        ("ST 1 a=256", 1, 8, "a: 256 does not fit in 1 byte; 0 to 255 is allowed"),
        ("ST 3 m=65536", 1, 8, "m: 65536 does not fit in 2 bytes"),
        ("ST 7 t=4294967296", 1, 8, "t: 4294967296 does not fit in 4 bytes"),
        ("ST 7 t=99999999999999999999999999999999999999999999", 1, 8, "does not fit in 4 bytes"),
        ("ST 256", 1, 4, "step: 256 does not fit in 1 byte"),
        ("raw", 1, 4, "raw needs at least one byte"),
        ("raw 4", 1, 5, "'4' is no byte"),
        ("raw zz", 1, 5, "'zz' is no byte"),
        ("raw +1", 1, 5, "'+1' is no byte"),
        ("raw \u{661}\u{661}", 1, 5, "is no byte"),
        ("ST 7 t=1 => maybe", 1, 13, "'maybe' is no answer; allowed: ok, refused"),
        ("=> ok", 1, 1, "a record is expected before =>"),
    ];
    for (text, line, column, message) in cases {
        let faults = errors(text);
        assert_eq!(faults.len(), 1, "{text}: {faults:?}");
        let Fault { line: at, column: of, message: told, .. } = &faults[0];
        assert!(told.contains(message), "{text}: {told}");
        assert_eq!((*at, *of), (line, column), "{text}: {told}");
    }
}

#[test]
fn all_faults_are_told_at_once() {
    let faults = errors("HD n=x flags=y\nST 1 q=1 a=300\nTM\nraw 4 zz");
    let places: Vec<(usize, usize)> = faults.iter().map(|f| (f.line, f.column)).collect();
    assert_eq!(places, [(1, 6), (1, 14), (2, 6), (2, 12), (3, 3), (4, 5), (4, 7)]);
}

#[test]
fn values_that_will_be_refused_are_warned_of() {
    let cases = [
        ("HD n=2 Ls=1 La=1", 2, "n is 2, and under HD 3 to 16 is allowed"),
        ("HD n=0 flags=2 Ls=1 La=1", 2, "n is 0, and under HD 3 to 16 is allowed"),
        ("HD n=17 Ls=1 La=1", 2, "under HD 3 to 16"),
        ("HW n=33 Ls=1 La=1", 2, "under HW 3 to 32"),
        ("H5 n=33 Ls=1 La=1", 2, "under H5 3 to 32"),
        ("H4 n=2 Ls=1 La=1", 2, "under H4 3 to 32"),
        ("H4 n=3 flags=8 Ls=1 La=1", 2, "a flag at 3 or above"),
        ("H5 n=3 Ls=1 La=1\nH4 n=3 Ls=1 La=1", 3, "a walk has one header"),
        ("HD n=3 flags=1 Ls=1 La=1", 2, "a flag on 0, the server"),
        ("HD n=3 flags=8 Ls=1 La=1", 2, "a flag at 3 or above"),
        ("HD n=3 La=1", 2, "Ls, the ticket's life, is 0"),
        ("HD n=3 Ls=1", 2, "La, the authenticator's life, is 0"),
        ("ST 1 a=1 b=2", 1, "a header is a walk's first record"),
        ("HD n=3 Ls=1 La=1\nHD n=3 Ls=1 La=1", 3, "a walk has one header"),
        ("HD n=3 Ls=1 La=1\nTM 7", 4, "there is no kind 7: kinds are 0 to 6"),
        ("HD n=3 Ls=1 La=1\nST 11", 4, "there is no step 11: steps are 1 to 10"),
        ("HD n=3 Ls=1 La=1\nST 0", 4, "there is no step 0"),
        ("HD n=3 Ls=1 La=1\nTM 0 L=1 R=2", 5, "a principal does not use R, which is 2"),
        (
            "HD n=3 Ls=1 La=1\nST 7 a=1 m=3",
            5,
            "step 7 does not use a, which is 1, nor m, which is 3",
        ),
    ];
    for (text, number, message) in cases {
        let script = read("text", text);
        assert!(!script.is_faulty());
        let [warning] = &script.faults[..] else { panic!("{text}: {:?}", script.faults) };
        assert_eq!(warning.line, text.lines().count(), "{text}");
        assert!(
            warning.message.contains(&format!("refusal {number},")),
            "{text}: {}",
            warning.message
        );
        assert!(warning.message.contains(message), "{text}: {}", warning.message);
        // and not where it is meant
        let meant = read("text", &format!("{text} => refused {number}"));
        assert_eq!(meant.faults, [], "{text}");
    }
}

#[test]
fn a_text_that_is_too_long_is_warned_of_where_it_becomes_so() {
    let text = format!("HD n=3 Ls=1 La=1\n{}", "TM 0 L=1\n".repeat(9361));
    let script = read("text", &text);
    let [warning] = &script.faults[..] else { panic!("{:?}", script.faults) };
    assert_eq!(warning.line, 1 + 9361);
    assert_eq!(script.listed.lines, ["0 file refused 1"]);
    assert!(script.told[1..].iter().all(|told| told.reason.is_empty()));
    assert_eq!(read("text", &text[..text.len() - "TM 0 L=1\n".len()]).faults, []);
}

#[test]
fn bytes_have_their_texts() {
    let cases = [
        ("", vec![]),
        ("48 44 03 00 00 00 00 00 64 00 00 00 0a", vec!["HD n=3 flags=0 Ls=100 La=10"]),
        ("48 44 03 00 02 00 00 00 64 00 00 00 0a", vec!["HD n=3 flags=0x0002 Ls=100 La=10"]),
        (
            "48 57 19 01 00 00 00 00 00 00 64 00 00 00 0a",
            vec!["HW n=25 flags=0x01000000 Ls=100 La=10"],
        ),
        (
            "48 57 03 00 00 00 00 00 00 00 64 00 00 00",
            vec!["raw 48 57 03 00 00 00 00 00 00 00 64 00 00 00"],
        ),
        (
            "48 34 03 00 00 00 06 00 00 00 64 00 00 00 0a 48 35",
            vec!["H4 n=3 flags=0x00000006 Ls=100 La=10", "raw 48 35"],
        ),
        ("53 54 04 00 00 00 00 0b 00 00 00 00", vec!["ST 4 run=0 m=11"]),
        ("53 54 08 00 00 02 00 00 00 00 00 05", vec!["ST 8 b=2 t=5"]),
        ("54 4d 00 00 00 00 00", vec!["TM 0 L=0"]),
        ("54 4d 07 00 00 00 00", vec!["TM 7"]),
        ("54 4d 07 00 00 00", vec!["raw 54 4d 07 00 00 00"]),
        ("53", vec!["raw 53"]),
    ];
    for (data, expected) in cases {
        assert_eq!(lines(&hex(data)), expected, "{data}");
    }
}

/// Numbers without end, the same each time.
struct Numbers(u64);

impl Numbers {
    fn below(&mut self, limit: u64) -> u64 {
        self.0 = self.0.wrapping_mul(6364136223846793005).wrapping_add(1442695040888963407);
        (self.0 >> 33) % limit
    }
}

fn round_trip(data: &[u8]) {
    assert_eq!(bytes(&lines(data).join("\n")), data);
}

#[test]
fn any_bytes_come_back() {
    let mut numbers = Numbers(1);
    for _ in 0..2000 {
        let length = numbers.below(60);
        round_trip(&(0..length).map(|_| numbers.below(256) as u8).collect::<Vec<_>>());
    }
    round_trip(&(0..65_537).map(|_| numbers.below(256) as u8).collect::<Vec<_>>());
}

#[test]
fn any_records_come_back() {
    let mut numbers = Numbers(2);
    for _ in 0..2000 {
        let mut data = Vec::new();
        for _ in 0..numbers.below(8) {
            let marks = pogandir::vocabulary::MARKS;
            let mark = marks[numbers.below(marks.len() as u64) as usize];
            data.extend(mark.letters.as_bytes());
            let most = if numbers.below(2) == 0 { 12 } else { 256 };
            data.extend((2..mark.record_bytes()).map(|_| numbers.below(most) as u8));
        }
        let cut = [0, 0, 0, 1, 2, 5, 11, 13][numbers.below(8) as usize];
        data.truncate(data.len().saturating_sub(cut));
        round_trip(&data);
        let (records, rest) = split(&data);
        assert_eq!(
            [records.iter().flat_map(|r| r.bytes()).collect(), rest.to_vec()].concat(),
            data
        );
    }
}
