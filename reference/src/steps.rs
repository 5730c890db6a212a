//! The steps 1 to 10: for each its refusals in their order, then its effect.
//! The fields of the record have passed the refusals 4, 5 and 6 before.

use crate::file::StepRecord;
use crate::realm::{Entry, Held, Realm, Role, Run, Stage, MAX_ENTRIES, MAX_RUNS};
use crate::refusal::Refusal;
use crate::rules::Rules;
use crate::terms::{Message, Shape};

/// Step 3's m: [a, b, any nonce N].
struct Request {
    a: u8,
    b: u8,
    nonce: u8,
}

/// K and Ts, as the initiator's part and the ticket carry them.
#[derive(Clone, Copy)]
struct Ticket {
    session_key: u8,
    time: u32,
}

/// An accepted step names a run, or none.
type Taken = Result<Option<usize>, Refusal>;

impl Realm {
    pub(crate) fn take_step(&mut self, record: &StepRecord) -> Taken {
        let run = usize::from(record.run);
        let message = self.terms.at(record.message).cloned();
        let message = || message.ok_or(Refusal::BadReference);
        match record.step {
            1 => self.open_initiator(record.a, record.b),
            2 => self.open_responder(record.a, record.b),
            3 => self.serve(&message()?),
            4 => self.initiator_takes_key(run, &message()?),
            5 => self.responder_accepts(run, &message()?),
            6 => self.initiator_finishes(run, &message()?),
            7 => self.set_clock(record.time),
            8 => self.forget(record.b),
            9 => self.leak(run),
            10 => self.check_derivable(&message()?).map(|()| None),
            _ => Err(Refusal::UnknownOperation),
        }
    }

    /// Step 1 opens an initiator run r and sends [a, b, nonce r].
    fn open_initiator(&mut self, a: u8, b: u8) -> Taken {
        self.check_room_for_run()?;
        let nonce = Shape::Nonce(self.next_run());
        let request = self.terms.list(&[Shape::Principal(a), Shape::Principal(b), nonce]);
        self.send(vec![request])?;
        Ok(self.open(Run { role: Role::Initiator, a, b, stage: Stage::Opened, held: None }))
    }

    /// Step 2 opens a responder run of b for a.
    fn open_responder(&mut self, a: u8, b: u8) -> Taken {
        self.check_room_for_run()?;
        Ok(self.open(Run { role: Role::Responder, a, b, stage: Stage::Opened, held: None }))
    }

    /// Step 3 opens a server run r; K is session key r, Ts the clock. It sends
    /// {K, b, Ts, N} under a's key, then the ticket, {K, a, Ts} under b's key. Under
    /// H5 it sends the pair of the two, under H4 {K, b, Ts, N, ticket} under a's key.
    fn serve(&mut self, message: &Message) -> Taken {
        self.check_room_for_run()?;
        let Request { a, b, nonce } = read_request(message).ok_or(Refusal::WrongForm)?;
        self.check_derivable(message)?;
        let session_key = self.next_run();
        let (key, time) = (Shape::SessionKey(session_key), Shape::Time(self.clock));
        let ticket = [key.clone(), Shape::Principal(a), time.clone()];
        let ticket = self.encrypted_list(&ticket, Shape::LongTermKey(b));
        let rules = self.settings.rule_set()?;
        let mut for_a = vec![key, Shape::Principal(b), time, Shape::Nonce(nonce)];
        if rules == Rules::Within {
            for_a.push(ticket.shape().clone());
        }
        let for_a = self.encrypted_list(&for_a, Shape::LongTermKey(a));
        let sent = match rules {
            Rules::Apart => vec![for_a, ticket],
            Rules::Beside => vec![self.terms.pair(for_a, ticket)],
            Rules::Within => vec![for_a],
        };
        self.send(sent)?;
        let held = Held { session_key, ticket_time: self.clock, authenticator_time: None };
        Ok(self.open(Run { role: Role::Server, a, b, stage: Stage::Done, held: Some(held) }))
    }

    /// Step 4 takes {K, b, Ts, own nonce} under a's key; Ta becomes the clock. It
    /// sends {a, Ta}K. Under H5 it takes the pair of that part and any X, under H4
    /// the part with any X in its last place, and sends the pair of X and {a, Ta}K.
    fn initiator_takes_key(&mut self, run: usize, message: &Message) -> Taken {
        let Run { a, b, .. } = self.check_run(run, Role::Initiator, Stage::Opened)?;
        let rules = self.settings.rule_set()?;
        let (ticket, x) = read_reply(rules, message, a, b, run).ok_or(Refusal::WrongForm)?;
        self.check_derivable(message)?;
        self.check_ticket_alive(ticket.time)?;
        let authenticator = [Shape::Principal(a), Shape::Time(self.clock)];
        let key = Shape::SessionKey(ticket.session_key);
        let authenticator = self.encrypted_list(&authenticator, key);
        let sent = match x {
            Some(x) => self.terms.pair(x, authenticator),
            None => authenticator,
        };
        self.send(vec![sent])?;
        self.hold(run, Stage::AfterStep4, ticket, self.clock);
        Ok(Some(run))
    }

    /// Step 5 takes the pair of {K, a, Ts} under b's key and {a, Ta}K. It
    /// remembers b, K, Ta and sends {Ta}K.
    fn responder_accepts(&mut self, run: usize, message: &Message) -> Taken {
        let Run { a, b, .. } = self.check_run(run, Role::Responder, Stage::Opened)?;
        let (ticket, ta) = read_delivery(message, a, b).ok_or(Refusal::WrongForm)?;
        self.check_derivable(message)?;
        self.check_ticket_alive(ticket.time)?;
        if self.is_over(ta, self.settings.authenticator_life) {
            return Err(Refusal::AuthenticatorExpired);
        }
        if self.is_ahead(ta, self.settings.authenticator_life) {
            return Err(Refusal::AuthenticatorAhead);
        }
        let session_key = ticket.session_key;
        let entry = Entry { responder: b, session_key, authenticator_time: ta };
        if self.cache.contains(&entry) {
            return Err(Refusal::Replayed);
        }
        if self.cache.len() >= MAX_ENTRIES {
            return Err(Refusal::CacheFull);
        }
        let answer = self.encrypted_list(&[Shape::Time(ta)], Shape::SessionKey(session_key));
        self.send(vec![answer])?;
        self.cache.push(entry);
        self.hold(run, Stage::Done, ticket, ta);
        Ok(Some(run))
    }

    /// Step 6 takes {Ta}K with the run's own values; the run is done.
    fn initiator_finishes(&mut self, run: usize, message: &Message) -> Taken {
        let held = self.check_run(run, Role::Initiator, Stage::AfterStep4)?.held;
        let held = held.ok_or(Refusal::WrongStage)?;
        if read_answer(message) != Some((held.session_key, held.authenticator_time)) {
            return Err(Refusal::WrongForm);
        }
        self.check_derivable(message)?;
        self.check_ticket_alive(held.ticket_time)?;
        self.runs[run].stage = Stage::Done;
        Ok(Some(run))
    }

    /// Step 7.
    fn set_clock(&mut self, time: u32) -> Taken {
        if time < self.clock {
            return Err(Refusal::ClockBack);
        }
        self.clock = time;
        Ok(None)
    }

    /// Step 8 forgets b's entries whose Ta + La is at or below the clock.
    fn forget(&mut self, b: u8) -> Taken {
        let mut kept = Vec::new();
        for entry in &self.cache {
            let over = self.is_over(entry.authenticator_time, self.settings.authenticator_life);
            if entry.responder != b || !over {
                kept.push(*entry);
            }
        }
        self.cache = kept;
        Ok(None)
    }

    /// Step 9 puts a server run's key on the wire.
    fn leak(&mut self, run: usize) -> Taken {
        let held = self.check_run(run, Role::Server, Stage::Done)?.held;
        let held = held.ok_or(Refusal::WrongStage)?;
        let key = self.terms.make(Shape::SessionKey(held.session_key));
        self.send(vec![key])?;
        Ok(Some(run))
    }
}

/// What the steps have in common.
impl Realm {
    fn check_room_for_run(&self) -> Result<(), Refusal> {
        if self.runs.len() >= MAX_RUNS {
            return Err(Refusal::RunsFull);
        }
        Ok(())
    }

    fn check_run(&self, run: usize, role: Role, stage: Stage) -> Result<Run, Refusal> {
        let found = self.runs[run];
        if found.role != role || found.stage != stage {
            return Err(Refusal::WrongStage);
        }
        Ok(found)
    }

    fn check_derivable(&self, message: &Message) -> Result<(), Refusal> {
        if !self.derivable().contains(message) {
            return Err(Refusal::NotDerivable);
        }
        Ok(())
    }

    fn check_ticket_alive(&self, ticket_time: u32) -> Result<(), Refusal> {
        if self.is_over(ticket_time, self.settings.ticket_life) {
            return Err(Refusal::TicketExpired);
        }
        Ok(())
    }

    /// The clock is at or above start + life; the sum is exact.
    fn is_over(&self, start: u32, life: u32) -> bool {
        u64::from(self.clock) >= u64::from(start) + u64::from(life)
    }

    /// The time is above clock + life; the sum is exact.
    fn is_ahead(&self, time: u32, life: u32) -> bool {
        u64::from(time) > u64::from(self.clock) + u64::from(life)
    }

    /// The number of the next run; below 64.
    fn next_run(&self) -> u8 {
        self.runs.len() as u8
    }

    /// Opens the run and names it.
    fn open(&mut self, run: Run) -> Option<usize> {
        self.runs.push(run);
        Some(self.runs.len() - 1)
    }

    fn hold(&mut self, run: usize, stage: Stage, ticket: Ticket, ta: u32) {
        let Ticket { session_key, time } = ticket;
        self.runs[run].stage = stage;
        self.runs[run].held =
            Some(Held { session_key, ticket_time: time, authenticator_time: Some(ta) });
    }

    fn encrypted_list(&mut self, body: &[Shape], key: Shape) -> Message {
        let body = self.terms.list(body);
        let key = self.terms.make(key);
        self.terms.encrypt(body, key)
    }

    /// Adds what is missing of the messages, or refuses as a whole, and puts
    /// the messages on the wire.
    fn send(&mut self, messages: Vec<Message>) -> Result<(), Refusal> {
        let missing = self.terms.missing(&messages);
        if !self.terms.has_room_for(missing.len()) {
            return Err(Refusal::TermsFull);
        }
        self.terms.add(missing);
        self.wire.extend(messages);
        Ok(())
    }
}

/// [a, b, any nonce N], a and b unequal and not 0.
fn read_request(message: &Message) -> Option<Request> {
    let (a, rest) = message.pair()?;
    let a = a.principal()?;
    let (b, nonce) = rest.pair()?;
    let b = b.principal()?;
    let nonce = nonce.nonce()?;
    (a != b && a != 0 && b != 0).then_some(Request { a, b, nonce })
}

/// Step 4's m: the initiator's part with the run's own nonce, and X if the rule
/// set has one.
fn read_reply(
    rules: Rules,
    message: &Message,
    a: u8,
    b: u8,
    run: usize,
) -> Option<(Ticket, Option<Message>)> {
    let (part, beside) = match rules {
        Rules::Beside => message.pair().map(|(part, x)| (part, Some(x)))?,
        _ => (message, None),
    };
    let (ticket, last) = read_initiator_part(part, a, b)?;
    let (nonce, within) = match rules {
        Rules::Within => last.pair().map(|(nonce, x)| (nonce, Some(x)))?,
        _ => (last, None),
    };
    holds(usize::from(nonce.nonce()?) == run)?;
    Some((ticket, beside.or(within).cloned()))
}

/// {K, b, Ts, last} under a's key, with what stands last.
fn read_initiator_part(message: &Message, a: u8, b: u8) -> Option<(Ticket, &Message)> {
    let (body, key) = message.encrypted()?;
    holds(key.long_term_key()? == a)?;
    let (session_key, rest) = body.pair()?;
    let session_key = session_key.session_key()?;
    let (peer, rest) = rest.pair()?;
    holds(peer.principal()? == b)?;
    let (time, last) = rest.pair()?;
    Some((Ticket { session_key, time: time.time()? }, last))
}

/// The pair of {K, a, Ts} under b's key and {a, Ta}K, with the same K.
fn read_delivery(message: &Message, a: u8, b: u8) -> Option<(Ticket, u32)> {
    let (ticket, authenticator) = message.pair()?;
    let ticket = read_ticket(ticket, a, b)?;
    let (body, key) = authenticator.encrypted()?;
    holds(key.session_key()? == ticket.session_key)?;
    let (sender, ta) = body.pair()?;
    holds(sender.principal()? == a)?;
    Some((ticket, ta.time()?))
}

/// {K, a, Ts} under b's key.
fn read_ticket(message: &Message, a: u8, b: u8) -> Option<Ticket> {
    let (body, key) = message.encrypted()?;
    holds(key.long_term_key()? == b)?;
    let (session_key, rest) = body.pair()?;
    let session_key = session_key.session_key()?;
    let (peer, time) = rest.pair()?;
    holds(peer.principal()? == a)?;
    Some(Ticket { session_key, time: time.time()? })
}

/// {Ta}K, as K and Ta.
fn read_answer(message: &Message) -> Option<(u8, Option<u32>)> {
    let (body, key) = message.encrypted()?;
    Some((key.session_key()?, Some(body.time()?)))
}

fn holds(condition: bool) -> Option<()> {
    condition.then_some(())
}
