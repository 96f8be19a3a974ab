//! The refusals and their numbers.

/// A refusal of document 01; the number is the one on the wire.
#[derive(Clone, Copy, Debug, PartialEq, Eq)]
#[repr(u8)]
pub enum Refusal {
    /// The bytes are no message of the kind expected, or a value breaks a field rule.
    Malformed = 1,
    /// Another house, or gossip from the screen itself.
    House = 2,
    /// The label names records of this screen that it has not taken.
    LabelAhead = 3,
    /// The sender's row already covers the gossip's stamp.
    Old = 4,
    /// The gossip's stamp and the sender's row each exceed the other somewhere.
    Crossed = 5,
    /// The sender claims records of this screen that it has not taken.
    ClaimsOurs = 6,
    /// The book would know more records than it may.
    Spent = 7,
    /// A record that the gossip's stamp promises is not in it.
    Gap = 8,
    /// The log would hold more records than it may.
    NoRoom = 9,
    /// The lent book is unsound or of wrong length.
    Unsound = 11,
    /// The output is shorter than the message.
    ShortOutput = 12,
}

impl Refusal {
    /// Every refusal. Ten is not used.
    pub const ALL: [Refusal; 11] = [
        Refusal::Malformed,
        Refusal::House,
        Refusal::LabelAhead,
        Refusal::Old,
        Refusal::Crossed,
        Refusal::ClaimsOurs,
        Refusal::Spent,
        Refusal::Gap,
        Refusal::NoRoom,
        Refusal::Unsound,
        Refusal::ShortOutput,
    ];

    /// The number on the wire.
    pub fn number(self) -> u8 {
        self as u8
    }

    /// The refusal of that number.
    pub fn from_number(number: u8) -> Option<Refusal> {
        Refusal::ALL.into_iter().find(|refusal| refusal.number() == number)
    }
}
