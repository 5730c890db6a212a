//! Walks with tickets that initiators carry: X is anything, what step 4 sends comes
//! to responders in every way, and a wrong rule for the reply shows in what they are
//! answered.

mod common;

use common::{files, meets_all};
use generator::carried::carried_tickets;
use generator::carried_cells::edges;
use generator::conditions::facts;
use generator::forms::{fits, part, places, reply, rules, ticket};
use reference::file::{read_header, read_record, Record, StepRecord};
use reference::realm::Realm;
use reference::rules::Rules;
use reference::terms::Message;

/// Those of X, of the pairs that came, and of the forms of other sets.
#[test]
fn every_way_is_met() {
    let of_this_walk = |cell: &String| {
        ["X ", "part ", "came", "the form of"].iter().any(|words| cell.contains(words))
    };
    let cells: Vec<String> = edges().into_iter().filter(of_this_walk).collect();
    meets_all(carried_tickets, &cells, 8 + 7 + 2 * 4 + 1 + 6);
}

/// A step 4 whose run is right: the rule set, and what it is offered.
struct Offer<'a> {
    rules: Rules,
    run: u8,
    a: u8,
    b: u8,
    message: &'a Message,
}

impl Offer<'_> {
    fn has_the_form_of(&self, rules: Rules) -> bool {
        fits(&reply(rules, self.a, self.b, self.run), self.message)
    }

    fn x(&self) -> Option<&Message> {
        places(self.rules).1.and_then(|place| part(self.message, place))
    }
}

/// Has the message the step's form?
type Rule = fn(&Offer) -> bool;

fn right(offer: &Offer) -> bool {
    offer.has_the_form_of(offer.rules)
}

fn always_apart(offer: &Offer) -> bool {
    offer.has_the_form_of(Rules::Apart)
}

fn always_beside(offer: &Offer) -> bool {
    offer.has_the_form_of(Rules::Beside)
}

fn always_within(offer: &Offer) -> bool {
    offer.has_the_form_of(Rules::Within)
}

fn any_of_the_three(offer: &Offer) -> bool {
    Rules::ALL.into_iter().any(|rules| offer.has_the_form_of(rules))
}

fn x_a_lock(offer: &Offer) -> bool {
    right(offer) && offer.x().is_none_or(|x| x.encrypted().is_some())
}

fn x_opened(offer: &Offer) -> bool {
    right(offer) && offer.x().is_none_or(|x| fits(&ticket([None; 4]), x))
}

fn x_for_the_responder(offer: &Offer) -> bool {
    let for_b = |x| fits(&ticket([None, None, None, Some(offer.b.into())]), x);
    right(offer) && offer.x().is_none_or(for_b)
}

/// Does the rule answer otherwise at a step 4 that its run does not bar?
fn shows(file: &[u8], rule: Rule) -> bool {
    let (header, mut rest) = read_header(file).unwrap();
    let mut realm = Realm::new(header.settings());
    while let Some(Ok((record, after))) = read_record(rest) {
        rest = after;
        if let Record::Step(StepRecord { step: 4, run, .. }) = record {
            let facts = facts(&mut realm, &record);
            let reached = facts.applies.first().is_none_or(|number| *number >= 14);
            if let (true, Some(found), Some(message)) = (reached, facts.run, &facts.message) {
                let offer = Offer { rules: rules(&realm), run, a: found.a, b: found.b, message };
                if rule(&offer) != right(&offer) {
                    return true;
                }
            }
        }
        let _ = realm.apply(&record);
    }
    false
}

#[test]
fn wrong_rules_are_found() {
    let wrong: [Rule; 7] = [
        always_apart,
        always_beside,
        always_within,
        any_of_the_three,
        x_a_lock,
        x_opened,
        x_for_the_responder,
    ];
    let found =
        wrong.map(|rule| files(carried_tickets, 300).filter(|file| shows(file, rule)).count());
    assert!(found.iter().all(|count| *count > 20), "{found:?}");
    assert_eq!(files(carried_tickets, 300).filter(|file| shows(file, right)).count(), 0);
}
