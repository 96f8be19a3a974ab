//! The numbers of the documented wire and layout, each once. They are the generator's own, so that it leans on neither
//! engine.

/// A house and a stamp. The parts are counted apart from the screens.
pub const LEAST_SCREENS: usize = 2;
pub const MOST_SCREENS: usize = 8;
pub const PARTS: usize = 8;

pub const PROMPTS: usize = 64;
pub const MOST_SHOWING: u16 = 65535;
pub const ACCEPT: u8 = 1;
pub const DECLINE: u8 = 2;

/// How many records a log holds, and a book knows.
pub const LOG_ROOM: usize = 256;
pub const KNOWN_ROOM: usize = 1024;

/// The byte of kind of each message.
pub mod kind {
    pub const GOSSIP: u8 = 1;
    pub const RECORD: u8 = 2;
    pub const TAP: u8 = 3;
    pub const QUESTION: u8 = 4;
    pub const TAKEN: u8 = 5;
    pub const ALREADY: u8 = 6;
    pub const VERDICT: u8 = 7;
    pub const WAIT: u8 = 8;
    pub const REFUSAL: u8 = 9;
    pub const GOSSIP_TAKEN: u8 = 10;
    pub const SEND: u8 = 12;
}

/// The refusals that are looked for by number.
pub mod refused {
    pub const UNSOUND: u8 = 11;
    pub const SHORT_OUTPUT: u8 = 12;
}

/// Kinds and refusals are counted in rows of so many.
pub const NUMBERED: usize = 16;

const STAMP_BYTES: usize = 4 * PARTS;

/// The kinds of reply and the lengths of their bodies.
pub const REPLY_BODIES: [(u8, usize); 6] = [
    (kind::TAKEN, STAMP_BYTES),
    (kind::ALREADY, STAMP_BYTES),
    (kind::VERDICT, 1 + 2 + 4 + 4 + STAMP_BYTES),
    (kind::WAIT, 1),
    (kind::REFUSAL, 1),
    (kind::GOSSIP_TAKEN, 2 + 2),
];

/// A length that no reply's body reaches.
pub const PAST_EVERY_BODY: usize = 1 + 2 + 4 + 4 + STAMP_BYTES + 5;

/// Where a lent book's pieces start that are looked at, and the words of one record and of one prompt.
pub mod at {
    use super::{MOST_SCREENS, PARTS};
    pub const SCREEN: usize = 0;
    pub const SCREENS: usize = 1;
    pub const LOGGED: usize = 2;
    pub const TABLE: usize = 4;
    pub const VALUE: usize = TABLE + MOST_SCREENS * PARTS;
}
pub const RECORD_WORDS: usize = 2 + PARTS + 1;
pub const PROMPT_WORDS: usize = 3;
