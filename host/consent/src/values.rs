//! The values that messages and books hold: stamps, taps, records, verdicts and refusals.

use std::error::Error;
use std::fmt;

use crate::numbers::*;

/// How many records of each screen are meant: the parts past the last screen are zero.
#[derive(Clone, Copy, Debug, Default, PartialEq, Eq, Hash)]
pub struct Stamp(pub [u32; STAMP_PARTS]);

/// What a person tapped.
#[derive(Clone, Copy, Debug, PartialEq, Eq, PartialOrd, Ord, Hash)]
pub enum Answer {
    /// Yes.
    Accept,
    /// No.
    Decline,
}

/// One tap. Two taps are the same exactly when all five fields agree.
#[derive(Clone, Copy, Debug, PartialEq, Eq, PartialOrd, Ord, Hash)]
pub struct Tap {
    /// The device that the finger touched.
    pub front_end: u8,
    /// The front end's own number of the touch.
    pub serial: u32,
    /// What was asked, below [`PROMPTS`].
    pub prompt: u8,
    /// Which showing of the prompt was answered, from [`LEAST_SHOWING`].
    pub showing: u16,
    /// What was tapped.
    pub answer: Answer,
}

/// A question on a prompt: it is answered once the book has applied all that the label names.
#[derive(Clone, Copy, Debug, PartialEq, Eq, Hash)]
pub struct Question {
    /// What was asked, below [`PROMPTS`].
    pub prompt: u8,
    /// What the answer has to take into account.
    pub label: Stamp,
}

/// A taken tap, as gossip carries it and logs keep it.
#[derive(Clone, Copy, Debug, PartialEq, Eq, Hash)]
pub struct Record {
    /// The screen that took it.
    pub origin: u8,
    /// Its number there, from 1.
    pub number: u32,
    /// The label that came with the tap.
    pub label: Stamp,
    /// The tap.
    pub tap: Tap,
}

/// What the taps on a prompt come to.
#[derive(Clone, Copy, Debug, PartialEq, Eq, Hash)]
pub enum Verdict {
    /// Nobody answered.
    Unasked,
    /// All accepted.
    Accepted,
    /// All declined.
    Declined,
    /// Some accepted, some declined.
    Contested,
}

/// Where a prompt stands: the answers to its latest showing.
#[derive(Clone, Copy, Debug, PartialEq, Eq, Hash)]
pub struct Standing {
    /// What they come to.
    pub verdict: Verdict,
    /// The highest showing that was answered, 0 if none.
    pub showing: u16,
    /// How many taps accepted it.
    pub accepts: u32,
    /// How many taps declined it.
    pub declines: u32,
}

/// Why a request was refused. A refusal changes nothing.
#[derive(Clone, Copy, Debug, PartialEq, Eq, Hash)]
pub enum Refusal {
    /// The bytes are no message of the kind expected, or a value breaks a field rule.
    Malformed,
    /// No such house or screen; gossip of another house, or from the screen itself.
    WrongHouse,
    /// The label names taps of this screen that it has not taken.
    LabelAhead,
    /// The gossip brings nothing that its sender had not told.
    Old,
    /// The gossip is neither older nor newer than what its sender told.
    Crossed,
    /// The gossip claims taps of this screen that it has not taken.
    ClaimsOurs,
    /// The book may know no more taps.
    Spent,
    /// A tap that the gossip promises is missing.
    Gap,
    /// The log has no room.
    NoRoom,
    /// The lent book is damaged or of wrong length.
    Unsound,
    /// The output is too short.
    ShortOutput,
}

impl Stamp {
    /// The stamp of nothing.
    pub const ZERO: Stamp = Stamp([0; STAMP_PARTS]);

    /// Whether every part of `other` is at most that part of this one.
    pub fn covers(&self, other: &Stamp) -> bool {
        self.0.iter().zip(&other.0).all(|(ours, theirs)| theirs <= ours)
    }

    /// The larger of the two in each part.
    pub fn merge(&self, other: &Stamp) -> Stamp {
        Stamp(std::array::from_fn(|k| self.0[k].max(other.0[k])))
    }
}

impl Answer {
    /// The answer's number.
    pub fn number(self) -> u8 {
        match self {
            Answer::Accept => ANSWER_ACCEPT,
            Answer::Decline => ANSWER_DECLINE,
        }
    }

    /// The answer of that number.
    pub fn from_number(number: u8) -> Option<Answer> {
        match number {
            ANSWER_ACCEPT => Some(Answer::Accept),
            ANSWER_DECLINE => Some(Answer::Decline),
            _ => None,
        }
    }
}

impl Tap {
    /// Whether prompt and showing are in range.
    pub fn is_in_range(&self) -> bool {
        usize::from(self.prompt) < PROMPTS && self.showing >= LEAST_SHOWING
    }
}

impl Record {
    /// The label with the origin's part replaced by the number; none if the origin is no screen.
    pub fn stamp(&self) -> Option<Stamp> {
        let mut stamp = self.label;
        *stamp.0.get_mut(usize::from(self.origin))? = self.number;
        Some(stamp)
    }
}

impl Verdict {
    /// The verdict of so many accepts and declines.
    pub fn of(accepts: u32, declines: u32) -> Verdict {
        match (accepts > 0, declines > 0) {
            (false, false) => Verdict::Unasked,
            (true, false) => Verdict::Accepted,
            (false, true) => Verdict::Declined,
            (true, true) => Verdict::Contested,
        }
    }

    /// The verdict's number.
    pub fn number(self) -> u8 {
        match self {
            Verdict::Unasked => VERDICT_UNASKED,
            Verdict::Accepted => VERDICT_ACCEPTED,
            Verdict::Declined => VERDICT_DECLINED,
            Verdict::Contested => VERDICT_CONTESTED,
        }
    }

    /// The verdict of that number.
    pub fn from_number(number: u8) -> Option<Verdict> {
        match number {
            VERDICT_UNASKED => Some(Verdict::Unasked),
            VERDICT_ACCEPTED => Some(Verdict::Accepted),
            VERDICT_DECLINED => Some(Verdict::Declined),
            VERDICT_CONTESTED => Some(Verdict::Contested),
            _ => None,
        }
    }
}

impl Refusal {
    /// The refusals with their numbers and what they say.
    const TABLE: [(u8, Refusal, &'static str); 11] = [
        (REFUSED_MALFORMED, Refusal::Malformed, "the message is malformed"),
        (REFUSED_WRONG_HOUSE, Refusal::WrongHouse, "the house or the screen is wrong"),
        (REFUSED_LABEL_AHEAD, Refusal::LabelAhead, "the label names taps that this screen has not taken"),
        (REFUSED_OLD, Refusal::Old, "the gossip is old"),
        (REFUSED_CROSSED, Refusal::Crossed, "the gossip is crossed with an earlier one"),
        (REFUSED_CLAIMS_OURS, Refusal::ClaimsOurs, "the gossip claims taps that this screen has not taken"),
        (REFUSED_SPENT, Refusal::Spent, "the book may know no more taps"),
        (REFUSED_GAP, Refusal::Gap, "the gossip lacks a tap"),
        (REFUSED_NO_ROOM, Refusal::NoRoom, "the log has no room"),
        (REFUSED_UNSOUND, Refusal::Unsound, "the book is damaged"),
        (REFUSED_SHORT_OUTPUT, Refusal::ShortOutput, "the output is too short"),
    ];

    /// The refusal's number.
    pub fn number(self) -> u8 {
        self.entry().0
    }

    /// The refusal of that number.
    pub fn from_number(number: u8) -> Option<Refusal> {
        let entry = Refusal::TABLE.iter().find(|(numbered, ..)| *numbered == number)?;
        Some(entry.1)
    }

    fn entry(self) -> &'static (u8, Refusal, &'static str) {
        let entry = Refusal::TABLE.iter().find(|(_, refusal, _)| *refusal == self);
        entry.expect("the table has every refusal")
    }
}

impl fmt::Display for Refusal {
    fn fmt(&self, f: &mut fmt::Formatter) -> fmt::Result {
        let (number, _, words) = self.entry();
        write!(f, "{words} (refusal {number})")
    }
}

impl Error for Refusal {}
