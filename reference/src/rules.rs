//! The rule sets: in which way the ticket comes to the responder. They differ in
//! what step 3 sends and in what step 4 takes and sends.

/// A realm keeps the number of its rule set.
#[derive(Clone, Copy, Debug, PartialEq, Eq)]
pub enum Rules {
    /// HD and HW: the server sends the ticket apart, and no initiator has it.
    Apart,
    /// H5: the server sends one pair of the initiator's part and the ticket.
    Beside,
    /// H4: the ticket is the last of the initiator's part.
    Within,
}

impl Rules {
    pub const ALL: [Rules; 3] = [Rules::Apart, Rules::Beside, Rules::Within];

    pub const fn number(self) -> u8 {
        self as u8
    }

    /// The rule set with this number, if there is one.
    pub fn numbered(number: u8) -> Option<Rules> {
        Rules::ALL.into_iter().find(|rules| rules.number() == number)
    }
}
