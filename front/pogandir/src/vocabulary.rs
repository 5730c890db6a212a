//! Everything that has a number or a name in a walk: marks and their fields, rule
//! sets, kinds of terms, steps, refusals. Reading, writing, sentences and the sheet
//! all look here, so a mark, step or refusal more is a row more. The messages of the
//! steps are in `forms`.

/// A field of a record: its name in the text form, and its bytes in the file.
#[derive(Clone, Copy, Debug, PartialEq, Eq)]
pub struct Field {
    pub name: &'static str,
    pub bytes: usize,
}

const fn field(name: &'static str, bytes: usize) -> Field {
    Field { name, bytes }
}

impl Field {
    /// The highest number that the field holds.
    pub fn most(&self) -> u32 {
        (u64::MAX >> (64 - 8 * self.bytes)) as u32
    }
}

/// What a record is for.
#[derive(Clone, Copy, Debug, PartialEq, Eq)]
pub enum Use {
    /// It opens the realm, of at most so many principals, under a rule set.
    Header {
        most: u8,
        rules: u8,
    },
    Term,
    Step,
}

/// A two-letter mark and the fields behind it, in the order of the file.
#[derive(Clone, Copy, Debug, PartialEq, Eq)]
pub struct Mark {
    pub letters: &'static str,
    pub purpose: Use,
    pub fields: &'static [Field],
}

/// Rule sets, by where the ticket is: apart from the reply, and the server sends it;
/// or in the reply, beside the initiator's part or inside of it, and the initiator
/// passes it on.
pub const APART: u8 = 0;
pub const BESIDE: u8 = 1;
pub const INSIDE: u8 = 2;

const NARROW: &[Field] = &[field("n", 1), field("flags", 2), field("Ls", 4), field("La", 4)];
const WIDE: &[Field] = &[field("n", 1), field("flags", 4), field("Ls", 4), field("La", 4)];

const fn header(letters: &'static str, fields: &'static [Field], most: u8, rules: u8) -> Mark {
    Mark { letters, purpose: Use::Header { most, rules }, fields }
}

pub const MARKS: [Mark; 6] = [
    header("HD", NARROW, 16, APART),
    header("HW", WIDE, 32, APART),
    header("H5", WIDE, 32, BESIDE),
    header("H4", WIDE, 32, INSIDE),
    Mark {
        letters: "TM",
        purpose: Use::Term,
        fields: &[field("kind", 1), field("L", 2), field("R", 2)],
    },
    Mark {
        letters: "ST",
        purpose: Use::Step,
        fields: &[
            field("step", 1),
            field("run", 1),
            field("a", 1),
            field("b", 1),
            field("m", 2),
            field("t", 4),
        ],
    },
];

impl Mark {
    pub fn named(letters: &str) -> Option<&'static Mark> {
        MARKS.iter().find(|mark| mark.letters.eq_ignore_ascii_case(letters))
    }

    /// The mark that a line begins with. Of those with a digit the capitals matter
    /// there, since h5 can be a run.
    pub fn beginning(word: &str) -> Option<&'static Mark> {
        let is_word = word.chars().all(char::is_alphabetic);
        Mark::named(word).filter(|mark| is_word || mark.letters == word)
    }

    pub fn is_header(&self) -> bool {
        self.rules().is_some()
    }

    /// The rule set that a header's mark names.
    pub fn rules(&self) -> Option<u8> {
        match self.purpose {
            Use::Header { rules, .. } => Some(rules),
            _ => None,
        }
    }

    /// Bytes of a whole record, its mark among them.
    pub fn record_bytes(&self) -> usize {
        self.letters.len() + self.fields.iter().map(|field| field.bytes).sum::<usize>()
    }

    /// The mark as the engine has it: the first letter in the high byte.
    pub fn number(&self) -> u16 {
        let letters = self.letters.as_bytes();
        engine::mark(&[letters[0], letters[1]])
    }

    /// The field that stands right behind the mark in the text form, without its name.
    pub fn leading(&self) -> Option<&'static str> {
        (!self.is_header()).then(|| self.fields[0].name)
    }

    /// The marks that a text can have, for a message.
    pub fn all() -> String {
        MARKS.map(|mark| mark.letters).join(", ")
    }
}

/// Principals of a realm, the server among them, at least.
pub const LEAST_PRINCIPALS: u8 = 3;

/// Nonces and session keys are numbered up to here; those of runs are below
/// `FIRST_OF_INTRUDER`, the others the intruder's own.
pub const MOST_NONCE_OR_KEY: u16 = 95;
pub const FIRST_OF_INTRUDER: u16 = 64;

/// Bytes of a walk file at most.
pub const LONGEST_FILE: usize = 65_536;

/// A kind of term: which operands it uses, the others being 0.
#[derive(Clone, Copy, Debug, PartialEq, Eq)]
pub struct Kind {
    pub number: u8,
    pub name: &'static str,
    pub uses: &'static [&'static str],
}

pub const PRINCIPAL: u8 = 0;
pub const TIME: u8 = 1;
pub const NONCE: u8 = 2;
pub const LONG_TERM_KEY: u8 = 3;
pub const SESSION_KEY: u8 = 4;
pub const PAIR: u8 = 5;
pub const ENCRYPTED: u8 = 6;

const fn kind(number: u8, name: &'static str, uses: &'static [&'static str]) -> Kind {
    Kind { number, name, uses }
}

pub const KINDS: [Kind; 7] = [
    kind(PRINCIPAL, "principal", &["L"]),
    kind(TIME, "time", &["L", "R"]),
    kind(NONCE, "nonce", &["L"]),
    kind(LONG_TERM_KEY, "long-term key", &["L"]),
    kind(SESSION_KEY, "session key", &["L"]),
    kind(PAIR, "pair", &["L", "R"]),
    kind(ENCRYPTED, "encryption", &["L", "R"]),
];

impl Kind {
    pub fn of(number: u32) -> Option<&'static Kind> {
        KINDS.iter().find(|kind| u32::from(kind.number) == number)
    }
}

/// A step: which fields it uses, and the name of the message that it takes.
#[derive(Clone, Copy, Debug, PartialEq, Eq)]
pub struct Step {
    pub number: u8,
    pub uses: &'static [&'static str],
    pub takes: Option<&'static str>,
}

/// An initiator asks the server, a responder waits, the server answers.
pub const INITIATE: u8 = 1;
pub const RESPOND: u8 = 2;
pub const ISSUE: u8 = 3;
/// An initiator takes the reply, a responder the delivery, an initiator the
/// confirmation.
pub const AUTHENTICATE: u8 = 4;
pub const ACCEPT: u8 = 5;
pub const FINISH: u8 = 6;
/// The clock is set, a responder forgets, a server's key leaks, and whether the
/// intruder can derive a message.
pub const TICK: u8 = 7;
pub const PURGE: u8 = 8;
pub const LEAK: u8 = 9;
pub const QUERY: u8 = 10;

const fn step(number: u8, uses: &'static [&'static str], takes: Option<&'static str>) -> Step {
    Step { number, uses, takes }
}

pub const STEPS: [Step; 10] = [
    step(INITIATE, &["a", "b"], None),
    step(RESPOND, &["a", "b"], None),
    step(ISSUE, &["m"], Some("request")),
    step(AUTHENTICATE, &["run", "m"], Some("reply")),
    step(ACCEPT, &["run", "m"], Some("delivery")),
    step(FINISH, &["run", "m"], Some("confirmation")),
    step(TICK, &["t"], None),
    step(PURGE, &["b"], None),
    step(LEAK, &["run"], None),
    step(QUERY, &["m"], Some("message")),
];

impl Step {
    pub fn of(number: u32) -> Option<&'static Step> {
        STEPS.iter().find(|step| u32::from(step.number) == number)
    }

    /// The step that takes a message of this name, for sentences.
    pub fn taking(name: &str) -> Option<&'static Step> {
        STEPS.iter().find(|step| step.uses.contains(&"run") && step.takes == Some(name))
    }
}

/// A refusal: why it is given, and what Kerberos calls it.
#[derive(Clone, Copy, Debug, PartialEq, Eq)]
pub struct Refusal {
    pub number: u8,
    pub words: &'static str,
    pub kerberos: Option<&'static str>,
}

const fn refusal(number: u8, words: &'static str) -> Refusal {
    Refusal { number, words, kerberos: None }
}

const fn in_kerberos(number: u8, words: &'static str, name: &'static str) -> Refusal {
    Refusal { number, words, kerberos: Some(name) }
}

pub const REFUSED_FILE: u8 = 1;
pub const REFUSED_HEADER: u8 = 2;
pub const REFUSED_RECORD: u8 = 3;
pub const REFUSED_KIND: u8 = 4;
pub const REFUSED_UNUSED: u8 = 5;
pub const REFUSED_RANGE: u8 = 6;
pub const REFUSED_TABLES: u8 = 10;
pub const REFUSED_STAGE: u8 = 11;
pub const REFUSED_CLOCK: u8 = 12;
pub const REFUSED_RUNS_FULL: u8 = 13;
pub const REFUSED_FORM: u8 = 14;
pub const REFUSED_UNDERIVABLE: u8 = 15;
pub const REFUSED_TICKET: u8 = 16;
pub const REFUSED_AUTHENTICATOR: u8 = 17;
pub const REFUSED_AHEAD: u8 = 22;
pub const REFUSED_REPLAY: u8 = 18;
pub const REFUSED_CACHE_FULL: u8 = 19;
pub const REFUSED_TERMS_FULL: u8 = 20;
pub const REFUSED_ROOM: u8 = 21;

/// In the order in which they are looked at.
pub const REFUSALS: [Refusal; 19] = [
    refusal(REFUSED_TABLES, "the tables do not hold together"),
    refusal(REFUSED_FILE, "the file is over 65,536 bytes, or does not begin with a whole header"),
    refusal(REFUSED_HEADER, "a header value is not allowed"),
    refusal(REFUSED_RECORD, "another mark, or a record cut short; reading ends here"),
    refusal(REFUSED_KIND, "no such kind or step"),
    refusal(REFUSED_UNUSED, "a field that is not used is not 0"),
    refusal(REFUSED_RANGE, "a field is out of range, or what it names is not there"),
    refusal(REFUSED_STAGE, "the run's role or stage does not fit"),
    refusal(REFUSED_CLOCK, "the clock would go back"),
    refusal(REFUSED_RUNS_FULL, "64 runs exist"),
    refusal(REFUSED_FORM, "the message has not the step's form"),
    refusal(REFUSED_UNDERIVABLE, "the intruder cannot derive the message"),
    in_kerberos(REFUSED_TICKET, "the ticket's life is over", "KRB_AP_ERR_TKT_EXPIRED"),
    in_kerberos(REFUSED_AUTHENTICATOR, "the authenticator's life is over", "KRB_AP_ERR_SKEW"),
    in_kerberos(REFUSED_AHEAD, "the authenticator's time is ahead of the clock", "KRB_AP_ERR_SKEW"),
    in_kerberos(REFUSED_REPLAY, "a replay: the entry is in the cache", "KRB_AP_ERR_REPEAT"),
    refusal(REFUSED_CACHE_FULL, "the replay cache holds 16 entries"),
    refusal(REFUSED_TERMS_FULL, "the new terms do not all fit"),
    refusal(REFUSED_ROOM, "no room in the buffer for the walk"),
];

impl Refusal {
    pub fn of(number: u8) -> Option<&'static Refusal> {
        REFUSALS.iter().find(|refusal| refusal.number == number)
    }

    /// Its words, with Kerberos's name where there is one.
    pub fn told(number: u8) -> String {
        match Refusal::of(number) {
            Some(Refusal { words, kerberos: Some(name), .. }) => format!("{words} ({name})"),
            Some(Refusal { words, .. }) => (*words).to_string(),
            None => format!("refusal {number}"),
        }
    }
}
