//! The numbers of `include/consent.h` by their names there, less `CONSENT_`. `tests/header.rs` holds the two equal, and
//! `host/c/numbers.c` holds the header to the library.

/// The fewest screens of a house.
pub const LEAST_SCREENS: usize = 2;
/// The most screens of a house.
pub const MOST_SCREENS: usize = 8;
/// The parts of a stamp, which are counted apart from the screens.
pub const STAMP_PARTS: usize = 8;
/// The prompts, numbered from 0.
pub const PROMPTS: usize = 64;
/// The lowest showing that can be answered.
pub const LEAST_SHOWING: u16 = 1;
/// The highest showing that can be answered.
pub const MOST_SHOWING: u16 = 65535;
/// The number of an accept.
pub const ANSWER_ACCEPT: u8 = 1;
/// The number of a decline.
pub const ANSWER_DECLINE: u8 = 2;
/// The most records that a log holds, and that gossip brings.
pub const LOG_ROOM: usize = 256;
/// The most records that a book knows.
pub const KNOWN_ROOM: usize = 1024;
/// The first byte of gossip, which is also the reply to a send.
pub const KIND_GOSSIP: u8 = 1;
/// The first byte of a tap.
pub const KIND_TAP: u8 = 3;
/// The first byte of a question.
pub const KIND_QUESTION: u8 = 4;
/// The one byte of a send.
pub const KIND_SEND: u8 = 12;
/// The first byte of the reply to a tap that is taken.
pub const KIND_TAKEN: u8 = 5;
/// The first byte of the reply to a tap that is here already.
pub const KIND_ALREADY: u8 = 6;
/// The first byte of the reply to a question that is answered.
pub const KIND_VERDICT: u8 = 7;
/// The first byte of the reply to a question that has to wait.
pub const KIND_WAIT: u8 = 8;
/// The first byte of a refusal.
pub const KIND_REFUSAL: u8 = 9;
/// The first byte of the reply to gossip that is taken.
pub const KIND_GOSSIP_TAKEN: u8 = 10;
/// The first byte of each record inside gossip.
pub const KIND_RECORD: u8 = 2;
/// The bytes of a stamp.
pub const STAMP_BYTES: usize = 4 * STAMP_PARTS;
/// The bytes of a tap's five fields.
pub const TAP_FIELDS_BYTES: usize = 1 + 4 + 1 + 2 + 1;
/// The length of gossip's head.
pub const HEAD_BYTES: usize = 1 + 1 + 1 + 2 + STAMP_BYTES;
/// The length of each record inside gossip.
pub const RECORD_BYTES: usize = 1 + 1 + 4 + STAMP_BYTES + TAP_FIELDS_BYTES;
/// The length of a tap, with its label.
pub const TAP_BYTES: usize = 1 + TAP_FIELDS_BYTES + STAMP_BYTES;
/// The length of a question.
pub const QUESTION_BYTES: usize = 1 + 1 + STAMP_BYTES;
/// The length of a send.
pub const SEND_BYTES: usize = 1;
/// The length of the reply Taken.
pub const TAKEN_BYTES: usize = 1 + STAMP_BYTES;
/// The length of the reply Already.
pub const ALREADY_BYTES: usize = 1 + STAMP_BYTES;
/// The length of a verdict.
pub const VERDICT_BYTES: usize = 1 + 1 + 2 + 4 + 4 + STAMP_BYTES;
/// The length of the reply Wait.
pub const WAIT_BYTES: usize = 1 + 1;
/// The length of a refusal.
pub const REFUSAL_BYTES: usize = 1 + 1;
/// The length of the reply to gossip that is taken.
pub const GOSSIP_TAKEN_BYTES: usize = 1 + 2 + 2;
/// The length of the longest gossip, and so of the longest message of all.
pub const LONGEST_GOSSIP: usize = HEAD_BYTES + LOG_ROOM * RECORD_BYTES;
/// The length of the longest reply to anything but a send.
pub const SHORT_REPLY: usize = VERDICT_BYTES;
/// The number of the verdict Unasked.
pub const VERDICT_UNASKED: u8 = 0;
/// The number of the verdict Accepted.
pub const VERDICT_ACCEPTED: u8 = 1;
/// The number of the verdict Declined.
pub const VERDICT_DECLINED: u8 = 2;
/// The number of the verdict Contested.
pub const VERDICT_CONTESTED: u8 = 3;
/// The number of [`Refusal::Malformed`](crate::Refusal::Malformed).
pub const REFUSED_MALFORMED: u8 = 1;
/// The number of [`Refusal::WrongHouse`](crate::Refusal::WrongHouse).
pub const REFUSED_WRONG_HOUSE: u8 = 2;
/// The number of [`Refusal::LabelAhead`](crate::Refusal::LabelAhead).
pub const REFUSED_LABEL_AHEAD: u8 = 3;
/// The number of [`Refusal::Old`](crate::Refusal::Old).
pub const REFUSED_OLD: u8 = 4;
/// The number of [`Refusal::Crossed`](crate::Refusal::Crossed).
pub const REFUSED_CROSSED: u8 = 5;
/// The number of [`Refusal::ClaimsOurs`](crate::Refusal::ClaimsOurs).
pub const REFUSED_CLAIMS_OURS: u8 = 6;
/// The number of [`Refusal::Spent`](crate::Refusal::Spent).
pub const REFUSED_SPENT: u8 = 7;
/// The number of [`Refusal::Gap`](crate::Refusal::Gap).
pub const REFUSED_GAP: u8 = 8;
/// The number of [`Refusal::NoRoom`](crate::Refusal::NoRoom).
pub const REFUSED_NO_ROOM: u8 = 9;
/// The number of [`Refusal::Unsound`](crate::Refusal::Unsound).
pub const REFUSED_UNSOUND: u8 = 11;
/// The number of [`Refusal::ShortOutput`](crate::Refusal::ShortOutput).
pub const REFUSED_SHORT_OUTPUT: u8 = 12;
/// The book's word with the screen's number.
pub const AT_SCREEN: usize = 0;
/// The book's word with the number of screens.
pub const AT_SCREENS: usize = 1;
/// The book's word with the number of records in the log.
pub const AT_LOGGED: usize = 2;
/// The book's word with the number of counted taps.
pub const AT_COUNTED_TAPS: usize = 3;
/// Where the book's table starts: a stamp for each screen.
pub const AT_TABLE: usize = 4;
/// Where the book's value stamp starts.
pub const AT_VALUE: usize = AT_TABLE + MOST_SCREENS * STAMP_PARTS;
/// Where the book's log starts.
pub const AT_LOG: usize = AT_VALUE + STAMP_PARTS;
/// The words of one record of the log.
pub const RECORD_WORDS: usize = 1 + 1 + STAMP_PARTS + 1;
/// Where the book's counted taps start, a word each.
pub const AT_COUNTED: usize = AT_LOG + LOG_ROOM * RECORD_WORDS;
/// Where the book's prompts start.
pub const AT_PROMPTS: usize = AT_COUNTED + KNOWN_ROOM;
/// The words of one prompt.
pub const PROMPT_WORDS: usize = 1 + 1 + 1;
/// The length of a book, in words.
pub const BOOK_WORDS: usize = AT_PROMPTS + PROMPTS * PROMPT_WORDS;
/// The lowest bit of the answer in a tap's word.
pub const BIT_OF_ANSWER: u32 = 0;
/// The lowest bit of the showing in a tap's word.
pub const BIT_OF_SHOWING: u32 = BIT_OF_ANSWER + 2;
/// The lowest bit of the prompt in a tap's word.
pub const BIT_OF_PROMPT: u32 = BIT_OF_SHOWING + 16;
/// The lowest bit of the serial in a tap's word.
pub const BIT_OF_SERIAL: u32 = BIT_OF_PROMPT + 6;
/// The lowest bit of the front end in a tap's word.
pub const BIT_OF_FRONT_END: u32 = BIT_OF_SERIAL + 32;
