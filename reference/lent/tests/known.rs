//! The whole set that the intruder can derive, and realms opened, beside the
//! reference.

use generator::random::Random;
use lent::{call, is_marked, Entry, Tables, TERM_PLACES, WIRE_WORDS};
use reference::file::{read_header, read_record, Header, Record, TermRecord};
use reference::marks::{mark, FORMATS};
use reference::realm::Realm;

/// The set of the engine is the reference's, bit by bit, and has no bit past the
/// last term.
fn compare(name: &str, tables: &Tables, realm: &Realm) {
    let known = tables.known().expect("the tables hold together");
    let derivable = realm.derivable();
    for number in 0..TERM_PLACES as u16 {
        let expected = realm.terms.at(number).is_some_and(|message| derivable.contains(message));
        assert_eq!(is_marked(&known, number), expected, "{name}, term {number}");
    }
}

#[test]
fn the_set_is_right_after_every_record_of_generated_files() {
    let mut records = 0;
    for number in 0..120 {
        let file = generator::walk_file(77, number);
        let Ok((header, mut rest)) = read_header(&file) else { continue };
        let mut realm = Realm::new(header.settings());
        let mut tables = lent::tables(&header);
        compare(&format!("file {number}, new"), &tables, &realm);
        while let Some(Ok((record, after))) = read_record(rest) {
            rest = after;
            records += 1;
            let _ = (call(&mut tables, &record), realm.apply(&record));
            compare(&format!("file {number}, record {records}"), &tables, &realm);
        }
    }
    assert!(records > 1000, "{records}");
}

const HEADER: Header = Header {
    mark: mark(b"HW"),
    principals: 32,
    flags: 0x8000_0010,
    ticket_life: 9,
    authenticator_life: 9,
};

/// Terms of every kind, on any terms before them.
fn any_term(random: &mut Random, count: usize) -> Record {
    let earlier = |random: &mut Random| random.below(count.max(1)) as u16;
    let kind = random.below(7) as u8;
    let (left, right) = match kind {
        0 | 3 => (random.below(32) as u16, 0),
        1 => (0, random.below(9) as u16),
        2 | 4 => (random.below(96) as u16, 0),
        _ => (earlier(random), earlier(random)),
    };
    Record::Term(TermRecord { kind, left, right })
}

/// Any terms may be on the wire: chains of encryptions that no steps send.
#[test]
fn the_set_is_right_for_any_wire() {
    for number in 0..60 {
        let mut random = Random::new(78, number);
        let mut realm = Realm::new(HEADER.settings());
        let mut tables = lent::tables(&HEADER);
        let most = [3, 40, 200, TERM_PLACES][random.below(4)];
        for _ in 0..2 * most {
            let record = any_term(&mut random, tables.realm.terms);
            if tables.realm.terms < most {
                let _ = (call(&mut tables, &record), realm.apply(&record));
            }
        }
        let one_in = 1 + random.below(20);
        for term in 0..tables.realm.terms as u16 {
            if random.one_in(one_in) {
                tables.wire[usize::from(term) / 64] |= 1 << (term % 64);
                realm.wire.insert(realm.terms.at(term).unwrap().clone());
            }
        }
        compare(&format!("tables {number}"), &tables, &realm);
    }
}

/// Runs and entries are not read; what is read has to hold together.
#[test]
fn tables_that_do_not_hold_together_get_10() {
    let mut good = lent::tables(&HEADER);
    for kind in [0, 3] {
        call(&mut good, &Record::Term(TermRecord { kind, left: 1, right: 0 }));
    }
    assert!(good.known().is_ok());
    let unread: [fn(&mut Tables); 3] = [
        |tables| tables.realm.runs = 99,
        |tables| tables.realm.entries = 99,
        |tables| tables.cache = vec![Entry { b: 99, k: 999, ta: 7 }; 3],
    ];
    for change in unread {
        let mut tables = good.clone();
        change(&mut tables);
        assert_eq!(tables.known(), good.known());
    }
    let breaks: [fn(&mut Tables); 11] = [
        |tables| tables.realm.n = 2,
        |tables| tables.realm.n = 33,
        |tables| tables.realm.rules = 3,
        |tables| tables.realm.flags |= 1,
        |tables| tables.realm.ticket_life = 0,
        |tables| tables.realm.terms = TERM_PLACES + 1,
        |tables| (tables.realm.terms, tables.terms[2]) = (3, tables.terms[0]), // it repeats
        |tables| tables.terms.truncate(TERM_PLACES - 1),
        |tables| tables.terms.push(0),
        |tables| tables.wire[0] = 4, // a mark past the last term
        |tables| tables.wire.truncate(WIRE_WORDS - 1),
    ];
    for (number, change) in breaks.iter().enumerate() {
        let mut tables = good.clone();
        change(&mut tables);
        assert_eq!(tables.known(), Err(10), "{number}");
    }
}

#[test]
fn realms_open_exactly_where_the_reference_opens_them() {
    let others = [mark(b"TM"), mark(b"ST"), mark(b"H6"), 0xffff];
    let marks = [FORMATS.map(|format| format.mark), others].concat();
    let (mut opened, mut refused) = (0, 0);
    for number in 0..20_000 {
        let mut random = Random::new(79, number);
        let header = Header {
            mark: random.pick(&marks),
            principals: random.below(40) as u8,
            flags: (random.number() as u32) >> random.below(33).min(31)
                & !u32::from(random.percent(80)),
            ticket_life: random.pick(&[0, 1, u32::MAX, 100]),
            authenticator_life: random.pick(&[0, 1, u32::MAX, 10]),
        };
        match (Tables::open(lent::header(&header)), header.check()) {
            (Ok(tables), Ok(_)) => {
                opened += 1;
                assert_eq!(tables, lent::tables(&header));
            }
            (Err(number), Err(refusal)) => {
                refused += 1;
                assert_eq!(number, refusal.number(), "{header:?}");
            }
            _ => panic!("{header:?}"),
        }
    }
    assert!(opened > 500 && refused > 500, "{opened} opened, {refused} refused");
}
