//! The cases of `term_tables`: every refusal of finding and adding a term and of
//! adding a message, a table filled to the last place, and the messages of
//! document 01's case F.

use reference::tables::TERM_PLACES;

use crate::calls::word;
use crate::terms::{Node, Table, NODES};
use crate::Script;

/// A call: finding or adding a term, by kind, L and R; adding a message, by its
/// draft and the node.
#[derive(Clone, Copy)]
enum Call<'a> {
    Find(u32, u32, u32),
    Add(u32, u32, u32),
    Message(&'a [Node], u32),
}

use Call::{Add, Find, Message};

impl Script<Table> {
    /// Goes over to this table; its draft does not count.
    fn set(&mut self, wanted: &Table) {
        let changes = |from: &Table| {
            from.terms.iter().zip(&wanted.terms).filter(|(old, new)| old != new).count()
        };
        if changes(&Table::default()) + 1 < changes(&self.program) {
            self.numbers('N', &[]);
        }
        if (self.program.count, self.program.places) != (wanted.count, wanted.places) {
            self.numbers('C', &[wanted.count as u32, wanted.places as u32]);
        }
        for (place, word) in wanted.terms.iter().enumerate() {
            if self.program.terms[place] != *word {
                let (left, right) = ((word >> 16) as u16, *word as u16);
                let kind = (word >> 32) as u32;
                self.numbers('T', &[place as u32, kind, left.into(), right.into()]);
            }
        }
    }

    fn call(&mut self, text: &str, call: Call) {
        if let Message(nodes, _) = call {
            for (number, node) in whole_draft(nodes).iter().enumerate() {
                if self.program.draft[number] != *node {
                    self.numbers('D', &[number as u32, node[0], node[1], node[2]]);
                }
            }
        }
        self.text(text);
        match call {
            Find(kind, left, right) => self.numbers('F', &[kind, left, right]),
            Add(kind, left, right) => self.numbers('A', &[kind, left, right]),
            Message(_, root) => self.numbers('M', &[root]),
        }
    }

    /// A call on this table.
    fn case(&mut self, text: &str, from: &Table, call: Call) {
        self.set(from);
        self.call(text, call);
    }
}

/// Times 0 behind the nodes.
fn whole_draft(nodes: &[Node]) -> [Node; NODES] {
    let mut draft = [[1, 0, 0]; NODES];
    draft[..nodes.len()].copy_from_slice(nodes);
    draft
}

/// A table of these terms.
fn table(terms: &[(u32, u32, u32)]) -> Table {
    let mut table = Table { count: terms.len(), ..Table::default() };
    for (place, (kind, left, right)) in terms.iter().enumerate() {
        table.terms[place] = word(*kind, *left, *right);
    }
    table
}

/// Principal 0, and then pairs, each of the last term with itself.
fn nest(count: u32) -> Table {
    let pairs = (1..count).map(|i| (5, i - 1, i - 1));
    table(&std::iter::once((0, 0, 0)).chain(pairs).collect::<Vec<_>>())
}

/// The table after a call that is accepted.
fn after(table: &Table, call: Call) -> Table {
    let mut table = table.clone();
    let accepted = match call {
        Find(..) => true,
        Add(kind, left, right) => table.add(kind, left, right).is_ok(),
        Message(nodes, root) => {
            table.draft = whole_draft(nodes);
            table.store(root).is_ok()
        }
    };
    assert!(accepted);
    table
}

/// Step 1 from principal 1 to 2: [1, 2, nonce 0].
const REQUEST: [Node; 5] = [[0, 1, 0], [0, 2, 0], [2, 0, 0], [5, 1, 2], [5, 0, 3]];

/// Step 3, first: {key 1, 2, time 0, nonce 0} under the key of 1. The nonce is
/// term 2.
const REPLY: [Node; 8] =
    [[4, 1, 0], [0, 2, 0], [1, 0, 0], [8, 2, 0], [5, 2, 3], [5, 1, 4], [5, 0, 5], [6, 6, 1]];

/// Step 3, second: {key 1, 1, time 0} under the key of 2.
const TICKET: [Node; 6] = [[4, 1, 0], [0, 1, 0], [1, 0, 0], [5, 1, 2], [5, 0, 3], [6, 4, 2]];

/// Step 4: {1, time 0} under key 1.
const AUTHENTICATOR: [Node; 4] = [[0, 1, 0], [1, 0, 0], [5, 0, 1], [7, 2, 1]];

/// Step 5: {time 0} under key 1.
const CONFIRMATION: [Node; 2] = [[1, 0, 0], [7, 0, 1]];

pub fn script() -> Script<Table> {
    let mut script = Script::new(Table::default());
    terms(&mut script);
    present(&mut script);
    broken_tables(&mut script);
    case_f(&mut script);
    shared(&mut script);
    drafts(&mut script);
    last_terms(&mut script);
    last_messages(&mut script);
    script
}

/// Principal 0, session key 1, the long-term key of 1, time 9, nonce 2, a pair,
/// an encryption.
fn seven() -> Table {
    table(&[(0, 0, 0), (4, 1, 0), (3, 1, 0), (1, 0, 9), (2, 2, 0), (5, 0, 1), (6, 0, 1)])
}

/// An eighth term: 4 before 5 before 6, and what is in range.
fn terms(script: &mut Script<Table>) {
    let seven = seven();
    let mut eighth = |text: &str, kind: u32, left: u32, right: u32| {
        script.case(text, &seven, Add(kind, left, right));
    };
    eighth("kind 7", 7, 0, 0);
    eighth("kind 255", 255, 0, 0);
    eighth("kind 7, L 9 and R 9", 7, 9, 9);
    eighth("principal 1, R 1", 0, 1, 1);
    eighth("nonce 1, R 1", 2, 1, 1);
    eighth("long-term key of 2, R 1", 3, 2, 1);
    eighth("session key 2, R 1", 4, 2, 1);
    eighth("principal 3 of 3, R 1", 0, 3, 1);
    eighth("nonce 96, R 1", 2, 96, 1);
    eighth("principal 2 of 3", 0, 2, 0);
    eighth("principal 3 of 3", 0, 3, 0);
    eighth("last time", 1, 65535, 65535);
    eighth("nonce 95", 2, 95, 0);
    eighth("nonce 96", 2, 96, 0);
    eighth("long-term key of 2 of 3", 3, 2, 0);
    eighth("long-term key of 3 of 3", 3, 3, 0);
    eighth("session key 95", 4, 95, 0);
    eighth("session key 96", 4, 96, 0);
    eighth("pair of 6 and 0", 5, 6, 0);
    eighth("pair of 7 and 0", 5, 7, 0);
    eighth("pair of 0 and 7", 5, 0, 7);
    eighth("term 6 under a session key", 6, 6, 1);
    eighth("term 7 under a session key", 6, 7, 1);
    eighth("term 6 under a long-term key", 6, 6, 2);
    eighth("term 6 under term 7", 6, 6, 7);
    eighth("term 2 under a principal", 6, 2, 0);
    eighth("term 2 under a time", 6, 2, 3);
    eighth("term 2 under a nonce", 6, 2, 4);
    eighth("term 2 under a pair", 6, 2, 5);
    eighth("term 2 under an encryption", 6, 2, 6);
}

/// A term that is present has its number. One in a place past the count is not
/// present.
fn present(script: &mut Script<Table>) {
    let seven = seven();
    let two = Table { count: 2, ..seven.clone() };
    script.case("nonce 2", &seven, Add(2, 2, 0));
    script.case("nonce 2, two terms counted", &two, Add(2, 2, 0));
    script.case("find nonce 2", &seven, Find(2, 2, 0));
    script.case("find nonce 2, two terms counted", &two, Find(2, 2, 0));
    script.case("find nonce 3", &seven, Find(2, 3, 0));
    script.case("find kind 7", &seven, Find(7, 0, 0));
}

/// 10 from every call for a table that does not hold together, with what would
/// be in order: a time, and a message that is a principal.
fn broken_tables(script: &mut Script<Table>) {
    let mut calls = |text: &str, table: &Table| {
        script.case(&format!("{text}, find"), table, Find(1, 0, 5));
        script.case(&format!("{text}, add"), table, Add(1, 0, 5));
        script.case(&format!("{text}, message"), table, Message(&[[0, 1, 0]], 0));
    };
    let with_third = |kind, left, right| table(&[(0, 0, 0), (4, 1, 0), (kind, left, right)]);
    let whole = with_third(2, 1, 0);
    calls("a table in order", &whole);
    calls("511 places", &Table { places: 511, ..whole.clone() });
    calls("513 places", &Table { places: 513, ..whole.clone() });
    calls("count 513", &Table { count: 513, ..whole });
    calls("kind 7 as term 2", &with_third(7, 0, 0));
    calls("kind 256 as term 2", &with_third(256, 2, 0));
    calls("principal 1, R 1 as term 2", &with_third(0, 1, 1));
    calls("principal 3 of 3 as term 2", &with_third(0, 3, 0));
    calls("nonce 96 as term 2", &with_third(2, 96, 0));
    calls("session key 96 as term 2", &with_third(4, 96, 0));
    calls("pair of 2 and 0 as term 2", &with_third(5, 2, 0));
    calls("pair of 0 and 2 as term 2", &with_third(5, 0, 2));
    calls("term 2 under a key as term 2", &with_third(6, 2, 1));
    calls("term 0 under a principal as term 2", &with_third(6, 0, 0));
    calls("session key 1 twice", &with_third(4, 1, 0));
}

/// What the steps of case F send, and the pair that its TM record adds.
fn case_f(script: &mut Script<Table>) {
    script.set(&Table::default());
    script.call("F step 1", Message(&REQUEST, 4));
    script.call("F step 3, first", Message(&REPLY, 7));
    script.call("F step 3, second", Message(&TICKET, 5));
    script.call("F step 4", Message(&AUTHENTICATOR, 3));
    script.call("F pair of 15 and 16", Add(5, 15, 16));
    script.call("F step 5", Message(&CONFIRMATION, 1));
}

/// No term stands twice.
fn shared(script: &mut Script<Table>) {
    let empty = Table::default();
    let nested: Vec<Node> =
        (0..16).map(|k| if k == 0 { [0, 1, 0] } else { [5, k - 1, k - 1] }).collect();
    script.case("step 1's message", &empty, Message(&REQUEST, 4));
    script.case("the pair within it", &empty, Message(&REQUEST, 3));
    let twins = [[0, 1, 0], [0, 1, 0], [5, 0, 1]];
    script.case("pair of two nodes alike", &empty, Message(&twins, 2));
    script.case("nest of 16 nodes", &empty, Message(&nested, 15));
    script.case("step 1's message, once", &empty, Message(&REQUEST, 4));
    script.call("step 1's message, again", Message(&REQUEST, 4));
    script.call("a part of it", Message(&REQUEST, 3));
}

/// 6 for a draft with a field out of range or a part that is not present, and
/// for a node that there is not; principal 0 is its first node and term 0.
fn drafts(script: &mut Script<Table>) {
    let zero = table(&[(0, 0, 0)]);
    let mut second = |text: &str, node: Node| {
        let draft = [[0, 0, 0], node];
        script.case(&format!("draft of {text}"), &zero, Message(&draft, 1));
    };
    second("principal 2 of 3", [0, 2, 0]);
    second("principal 3 of 3", [0, 3, 0]);
    second("nonce 95", [2, 95, 0]);
    second("nonce 96", [2, 96, 0]);
    second("session key 95", [4, 95, 0]);
    second("session key 96", [4, 96, 0]);
    second("the long-term key of 3 of 3", [3, 3, 0]);
    second("a term that is present", [8, 0, 0]);
    second("a term that is not present", [8, 1, 0]);
    second("a pair of 0 and 0", [5, 0, 0]);
    second("a pair of 1 and 0 as node 1", [5, 1, 0]);
    second("a pair of 0 and 1 as node 1", [5, 0, 1]);
    second("node 0 under key 95", [7, 0, 95]);
    second("node 0 under key 96", [7, 0, 96]);
    second("node 0 under the key of 3 of 3", [6, 0, 3]);
    second("node 1 under key 1 as node 1", [7, 1, 1]);
    script.case("root 16", &zero, Message(&REQUEST, 16));
    let mut unused = whole_draft(&REQUEST);
    unused[15] = [2, 96, 0];
    script.case("nonce 96 in a node that is not used", &zero, Message(&unused, 4));
}

/// A table of 511 terms, and of 512. 20 comes after the other refusals.
fn last_terms(script: &mut Script<Table>) {
    let one_left = nest(511);
    script.case("one place left, time 5", &one_left, Add(1, 0, 5));
    script.case("one place left, principal 0", &one_left, Add(0, 0, 0));
    let full = after(&one_left, Add(1, 0, 5));
    let mut case = |text: &str, call: Call| script.case(text, &full, call);
    case("full, time 5", Add(1, 0, 5));
    case("full, principal 0", Add(0, 0, 0));
    case("full, pair of 509 and 509", Add(5, 509, 509));
    case("full, time 6", Add(1, 0, 6));
    case("full, pair of 511 and 511", Add(5, 511, 511));
    case("full, kind 7", Add(7, 0, 0));
    case("full, principal 1 with R 1", Add(0, 1, 1));
    case("full, principal 3 of 3", Add(0, 3, 0));
    case("full, find time 5", Find(1, 0, 5));
    case("full, find time 6", Find(1, 0, 6));
}

/// Step 1's message needs five places. 6 comes before 20.
fn last_messages(script: &mut Script<Table>) {
    let (five, four) = (nest(507), nest(508));
    script.case("five places left, five terms", &five, Message(&REQUEST, 4));
    script.case("four places left, five terms", &four, Message(&REQUEST, 4));
    script.case("four places left, three terms", &four, Message(&REQUEST, 3));
    script.case("three terms more", &four, Message(&REQUEST, 3));
    script.call("one place left, two terms", Message(&REQUEST, 4));
    script.call("one term more", Message(&REQUEST, 0));
    let full = script.program.clone();
    assert_eq!(full.count, TERM_PLACES);
    script.call("full, one term", Message(&CONFIRMATION, 0));
    script.call("full, a message that is present", Message(&REQUEST, 3));
    script.call("full, root 16", Message(&REQUEST, 16));
}
