//! The numbers by which a record is turned away. They are looked at in rising
//! order, but for two: 10 comes before all others, and 22 "after 17 and before
//! 18".

/// A refusal is its number alone.
#[derive(Clone, Copy, Debug, PartialEq, Eq, PartialOrd, Ord, Hash)]
#[repr(u8)]
pub enum Refusal {
    /// The file is too long, or has no whole header first.
    NoHeader = 1,
    /// A value of the header is out of its range.
    BadHeader = 2,
    /// A mark is unknown, or a record is cut short.
    BrokenRecord = 3,
    /// The kind or the step does not exist.
    UnknownOperation = 4,
    /// A field that the record does not use is not 0.
    UnusedField = 5,
    /// A field names something that is not there.
    BadReference = 6,
    /// Tables that do not hold together. Only a library caller meets it: no
    /// file can make such tables.
    BrokenTables = 10,
    /// The run's role or stage does not fit.
    WrongStage = 11,
    /// The clock would go back.
    ClockBack = 12,
    /// All runs are taken.
    RunsFull = 13,
    /// The message has not the step's form.
    WrongForm = 14,
    /// The intruder cannot derive the message.
    NotDerivable = 15,
    /// The ticket's life is over.
    TicketExpired = 16,
    /// The authenticator's life is over.
    AuthenticatorExpired = 17,
    /// The delivery is in the replay cache.
    Replayed = 18,
    /// The replay cache has no place left.
    CacheFull = 19,
    /// The terms to be added do not all fit.
    TermsFull = 20,
    /// The file does not fit into the buffer at the offset. Only a caller of the
    /// writer meets it.
    NoRoomInBuffer = 21,
    /// The authenticator's time is too far ahead of the clock.
    AuthenticatorAhead = 22,
}

impl Refusal {
    pub fn number(self) -> u8 {
        self as u8
    }

    /// "After 1, 2 or 3 reading ends", and they print `file` for the mark.
    pub fn ends_reading(self) -> bool {
        self <= Refusal::BrokenRecord
    }
}
