//! The numbers of document 01, each once: every other number is worked out from these.

/// The fewest screens of a house.
pub const LEAST_SCREENS: usize = 2;
/// The most screens of a house, each with a row of the table.
pub const MOST_SCREENS: usize = 8;
/// The parts of a stamp: one for each screen that a house may have. The two are never taken for each other, since a
/// part may come to stand for something else than a screen.
pub const PARTS: usize = 8;
/// The number of prompts.
pub const PROMPTS: usize = 64;
/// The lowest showing of a prompt that can be answered; the highest is what 16 bits hold.
pub const LEAST_SHOWING: u16 = 1;
/// The most records that a log holds, and that gossip brings.
pub const LOG_ROOM: usize = 256;
/// The most records that a book knows.
pub const KNOWN_ROOM: usize = 1024;

const _: () = assert!(MOST_SCREENS <= PARTS, "every screen has a part");
