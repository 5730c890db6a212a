//! The lettered cases of document 01, as far as a walk or a table shows them.

mod common;

use std::collections::HashSet;

use common::{check, check_each, walk, EXCHANGE};
use reference::file::Settings;
use reference::intruder::derivable;
use reference::terms::{Message, Shape, Terms};

#[test]
fn case_f_prints_the_listing_of_the_paper() {
    let file = walk(
        "HD n=3 flags=0 Ls=100 La=10
         ST 1 a=1 b=2
         ST 3 m=4
         ST 4 run=0 m=11
         ST 2 a=1 b=2
         TM 5 L=15 R=16
         ST 5 run=2 m=17
         ST 6 run=0 m=18
         ST 2 a=1 b=2
         ST 5 run=3 m=17",
    );
    let expected = "\
0 HD ok
1 ST ok 0 +5
2 ST ok 1 +11
3 ST ok 0 +1
4 ST ok 2 +0
5 TM 17 new
6 ST ok 2 +1
7 ST ok 0 +0
8 ST ok 3 +0
9 ST refused 18
end runs 4 wire 5 cache 1 clock 0
";
    assert_eq!(reference::listing(&file), expected);
}

#[test]
fn case_a_at_step_4() {
    let beginning = "
        HD n=3 Ls=100 La=10 => ok
        ST 1 a=1 b=2 => ok 0 +5
        ST 3 m=4     => ok 1 +11";
    check_each(
        beginning,
        &[
            "ST 7 t=99  => ok - +0
         ST 4 run=0 m=11 => ok 0 +3",
            "ST 7 t=100 => ok - +0
         ST 4 run=0 m=11 => refused 16",
        ],
    );
}

#[test]
fn case_a_at_step_5() {
    let beginning = "
        HD n=3 Ls=100 La=1000 => ok
        ST 1 a=1 b=2    => ok 0 +5
        ST 3 m=4        => ok 1 +11
        ST 4 run=0 m=11 => ok 0 +1
        ST 2 a=1 b=2    => ok 2 +0
        TM 5 L=15 R=16  => 17 new";
    check_each(
        beginning,
        &[
            "ST 7 t=99  => ok - +0
         ST 5 run=2 m=17 => ok 2 +1",
            "ST 7 t=100 => ok - +0
         ST 5 run=2 m=17 => refused 16",
        ],
    );
}

#[test]
fn case_a_at_step_6() {
    let beginning = format!("{EXCHANGE}\nST 5 run=2 m=17 => ok 2 +1");
    check_each(
        &beginning,
        &[
            "ST 7 t=99  => ok - +0
         ST 6 run=0 m=18 => ok 0 +0",
            "ST 7 t=100 => ok - +0
         ST 6 run=0 m=18 => refused 16",
        ],
    );
}

#[test]
fn case_b_at_step_5() {
    check_each(
        EXCHANGE,
        &[
            "ST 7 t=9  => ok - +0
         ST 5 run=2 m=17 => ok 2 +1",
            "ST 7 t=10 => ok - +0
         ST 5 run=2 m=17 => refused 17",
        ],
    );
}

#[test]
fn case_c_at_step_8() {
    let beginning = format!("{EXCHANGE}\nST 5 run=2 m=17 => ok 2 +1");
    check_each(
        &beginning,
        &[
            "ST 7 t=9  => ok - +0
         ST 8 b=2 => ok - +0
         end runs 3 wire 5 cache 1 clock 9",
            "ST 7 t=10 => ok - +0
         ST 8 b=2 => ok - +0
         end runs 3 wire 5 cache 0 clock 10",
        ],
    );
}

#[test]
fn case_d_at_step_7() {
    check(
        "HD n=3 Ls=1 La=1 => ok
         ST 7 t=5 => ok - +0
         ST 7 t=5 => ok - +0
         ST 7 t=4 => refused 12
         end runs 0 wire 0 cache 0 clock 5",
    );
}

#[test]
fn case_e_as_a_walk() {
    check(
        "HD n=3 flags=0x0002 Ls=1 La=1 => ok
         TM 1 => 0 new
         TM 0 L=0 => 1 new
         TM 0 L=2 => 2 new
         TM 5 L=1 R=2 => 3 new
         TM 3 L=2 => 4 new
         TM 3 L=1 => 5 new
         TM 3 L=0 => 6 new
         ST 10 m=0 => ok - +0
         ST 10 m=3 => ok - +0
         ST 10 m=4 => refused 15   # key of a good principal
         ST 10 m=5 => ok - +0      # key of a bad one
         ST 10 m=6 => refused 15   # the server's key
         end runs 0 wire 0 cache 0 clock 0",
    );
}

/// A table of terms with some of them on the wire, as no walk can leave it.
struct Tables {
    terms: Terms,
    wire: HashSet<Message>,
}

impl Tables {
    fn new() -> Tables {
        Tables { terms: Terms::default(), wire: HashSet::new() }
    }

    fn lock(&mut self, body: Shape, key: Shape) -> Message {
        let (body, key) = (self.terms.make(body), self.terms.make(key));
        let message = self.terms.encrypt(body, key);
        self.terms.add(self.terms.missing(std::slice::from_ref(&message)));
        message
    }

    fn send(&mut self, message: Message) {
        self.wire.insert(message);
    }

    fn derives(&mut self, shape: Shape) -> bool {
        let message = self.terms.make(shape);
        assert!(self.terms.number(&message).is_some());
        let settings = Settings {
            principals: 3,
            rules: 0,
            flags: 0b010,
            ticket_life: 1,
            authenticator_life: 1,
        };
        derivable(&settings, &self.terms, &self.wire).contains(&message)
    }
}

#[test]
fn case_g_a_key_locked_under_itself() {
    let mut tables = Tables::new();
    let lock = tables.lock(Shape::SessionKey(1), Shape::SessionKey(1));
    tables.send(lock);
    assert!(!tables.derives(Shape::SessionKey(1)));
}

#[test]
fn case_h_a_key_behind_a_key_behind_a_bad_principal() {
    // In the order of the paper, so that one pass by rising number is not enough.
    let mut tables = Tables::new();
    let first = tables.lock(Shape::SessionKey(2), Shape::SessionKey(1));
    let second = tables.lock(Shape::SessionKey(1), Shape::LongTermKey(1));
    tables.send(first);
    assert!(!tables.derives(Shape::SessionKey(2)));
    tables.send(second);
    assert!(tables.derives(Shape::SessionKey(2)));
}

#[test]
fn case_h_with_a_good_principal() {
    let mut tables = Tables::new();
    let first = tables.lock(Shape::SessionKey(2), Shape::SessionKey(1));
    let second = tables.lock(Shape::SessionKey(1), Shape::LongTermKey(2));
    tables.send(first);
    tables.send(second);
    assert!(!tables.derives(Shape::SessionKey(2)));
}

#[test]
fn case_i_a_lock_is_sent_on_unopened() {
    let mut tables = Tables::new();
    let lock = tables.lock(Shape::Nonce(0), Shape::SessionKey(1));
    tables.send(lock.clone());
    assert!(tables.derives(lock.shape().clone()));
    assert!(!tables.derives(Shape::Nonce(0)));
}

#[test]
fn a_long_chain_of_keys_opens_in_any_order() {
    for rising in [true, false] {
        let mut tables = Tables::new();
        let links: Vec<u8> = if rising { (0..60).collect() } else { (0..60).rev().collect() };
        for link in links {
            let lock = tables.lock(Shape::SessionKey(link), Shape::SessionKey(link + 1));
            tables.send(lock);
        }
        assert!(!tables.derives(Shape::SessionKey(0)));
        let start = tables.lock(Shape::SessionKey(60), Shape::SessionKey(64));
        tables.send(start);
        assert!(tables.derives(Shape::SessionKey(0)));
    }
}
