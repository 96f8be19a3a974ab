//! Taps, one word each.

use super::{LEAST_SHOWING, PROMPTS};

/// A tap: front end, serial, prompt, showing and answer in one word, in that order from the top.
///
/// The fields fill the word exactly, so words compare as the five fields do, one after the other,
/// and two taps are the same exactly when their words are.
#[derive(Clone, Copy, Debug, PartialEq, Eq, PartialOrd, Ord)]
pub struct Tap(u64);

/// The lowest bit of each field: a field ends where the next one starts.
const ANSWER: u32 = 0;
const SHOWING: u32 = ANSWER + 2;
const PROMPT: u32 = SHOWING + u16::BITS;
const SERIAL: u32 = PROMPT + PROMPTS.ilog2();
const FRONT_END: u32 = SERIAL + u32::BITS;

const _: () =
    assert!(PROMPTS.is_power_of_two() && FRONT_END + u8::BITS == u64::BITS, "the fields fill the word");

/// The greatest number that a field of so many bits holds.
const fn greatest_in(bits: u32) -> u8 {
    (1 << bits) - 1
}

const GREATEST_ANSWER: u8 = greatest_in(SHOWING - ANSWER);
const GREATEST_PROMPT: u8 = greatest_in(SERIAL - PROMPT);

impl Tap {
    /// The answer that accepts.
    pub const ACCEPT: u8 = 1;
    /// The answer that declines.
    pub const DECLINE: u8 = 2;

    /// The tap with these fields, if each is in range.
    pub fn new(front_end: u8, serial: u32, prompt: u8, showing: u16, answer: u8) -> Option<Tap> {
        if usize::from(prompt) >= PROMPTS || answer > GREATEST_ANSWER {
            return None;
        }
        let high = u64::from(front_end) << FRONT_END | u64::from(serial) << SERIAL;
        let low = u64::from(prompt) << PROMPT | u64::from(showing) << SHOWING | u64::from(answer) << ANSWER;
        Tap::from_word(high | low)
    }

    /// The tap of that word, if its showing and answer are in range; the other fields always are.
    pub fn from_word(word: u64) -> Option<Tap> {
        let tap = Tap(word);
        let answered = matches!(tap.answer(), Tap::ACCEPT | Tap::DECLINE);
        (tap.showing() >= LEAST_SHOWING && answered).then_some(tap)
    }

    /// The tap as one word.
    pub fn word(self) -> u64 {
        self.0
    }

    pub fn front_end(self) -> u8 {
        (self.0 >> FRONT_END) as u8
    }

    pub fn serial(self) -> u32 {
        (self.0 >> SERIAL) as u32
    }

    pub fn prompt(self) -> u8 {
        (self.0 >> PROMPT) as u8 & GREATEST_PROMPT
    }

    pub fn showing(self) -> u16 {
        (self.0 >> SHOWING) as u16
    }

    pub fn answer(self) -> u8 {
        (self.0 >> ANSWER) as u8 & GREATEST_ANSWER
    }
}
