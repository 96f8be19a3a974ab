//! The kinds of message, and where the fields of each stand.

use super::{Bits, LOG_ROOM, PARTS};

/// The byte of kind of each message.
pub mod kind {
    pub const GOSSIP: u8 = 1;
    pub const RECORD: u8 = 2;
    pub const TAP: u8 = 3;
    pub const QUESTION: u8 = 4;
    pub const TAKEN: u8 = 5;
    pub const ALREADY: u8 = 6;
    pub const VERDICT: u8 = 7;
    pub const WAIT: u8 = 8;
    pub const REFUSAL: u8 = 9;
    pub const GOSSIP_TAKEN: u8 = 10;
    pub const SEND: u8 = 12;
}

/// The widths of a kind, a part, a stamp, and a bit for each part.
pub const KIND_BYTES: usize = 1;
pub const PART_BYTES: usize = size_of::<u32>();
pub const STAMP_BYTES: usize = PART_BYTES * PARTS;
pub const BITS_BYTES: usize = size_of::<Bits>();

/// A gossip message's head, from its byte of kind.
pub mod head {
    use super::{KIND_BYTES, STAMP_BYTES};
    pub const SENDER: usize = KIND_BYTES;
    pub const SCREENS: usize = SENDER + 1;
    pub const COUNT: usize = SCREENS + 1;
    pub const STAMP: usize = COUNT + 2;
    pub const END: usize = STAMP + STAMP_BYTES;
}

/// A record of a gossip message, from its byte of kind.
pub mod record {
    use super::{tap, KIND_BYTES, STAMP_BYTES};
    pub const ORIGIN: usize = KIND_BYTES;
    pub const NUMBER: usize = ORIGIN + 1;
    pub const LABEL: usize = NUMBER + 4;
    pub const TAP: usize = LABEL + STAMP_BYTES;
    pub const END: usize = TAP + tap::END;
}

/// The five fields of a tap.
pub mod tap {
    pub const FRONT_END: usize = 0;
    pub const SERIAL: usize = FRONT_END + 1;
    pub const PROMPT: usize = SERIAL + 4;
    pub const SHOWING: usize = PROMPT + 1;
    pub const ANSWER: usize = SHOWING + 2;
    pub const END: usize = ANSWER + 1;
}

/// What a verdict says of a prompt.
pub mod standing {
    pub const VERDICT: usize = 0;
    pub const SHOWING: usize = VERDICT + 1;
    pub const ACCEPTS: usize = SHOWING + 2;
    pub const DECLINES: usize = ACCEPTS + 4;
    pub const END: usize = DECLINES + 4;
}

/// What is told of gossip that is taken.
pub mod news {
    pub const NEW: usize = 0;
    pub const APPLIED: usize = NEW + 2;
    pub const END: usize = APPLIED + 2;
}

/// The length of a gossip message's head.
pub const HEAD_BYTES: usize = head::END;
/// The length of one record of a gossip message.
pub const RECORD_BYTES: usize = record::END;
/// The length of the longest gossip message.
pub const LONGEST_GOSSIP: usize = HEAD_BYTES + LOG_ROOM * RECORD_BYTES;

/// The length of the body of a request other than gossip.
pub fn request_body(kind: u8) -> Option<usize> {
    match kind {
        kind::TAP => Some(tap::END + STAMP_BYTES),
        kind::QUESTION => Some(1 + STAMP_BYTES),
        kind::SEND => Some(0),
        _ => None,
    }
}

/// The length of the body of a reply other than gossip.
pub const fn reply_body(kind: u8) -> Option<usize> {
    match kind {
        kind::TAKEN | kind::ALREADY => Some(STAMP_BYTES),
        kind::VERDICT => Some(standing::END + STAMP_BYTES),
        kind::WAIT => Some(BITS_BYTES),
        kind::REFUSAL => Some(1),
        kind::GOSSIP_TAKEN => Some(news::END),
        _ => None,
    }
}

/// The length of a reply of that kind, which is one other than gossip.
pub const fn reply_bytes(kind: u8) -> usize {
    KIND_BYTES + reply_body(kind).expect("a kind of reply")
}
