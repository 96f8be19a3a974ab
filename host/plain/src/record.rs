//! Records: known, applied, and their field rules.

use super::{Stamp, Tap};

/// A tap with its label, the screen that took it and its number there.
#[derive(Clone, Copy, Debug, PartialEq, Eq)]
pub struct Record {
    pub origin: usize,
    pub number: u32,
    pub label: Stamp,
    pub tap: Tap,
}

impl Record {
    /// The label with the origin's part replaced by the number.
    pub fn stamp(&self) -> Stamp {
        let mut stamp = self.label;
        stamp.0[self.origin] = self.number;
        stamp
    }

    /// Whether `other` covers the stamp of a record that obeys the rules: its label's part for the origin is below its
    /// number. Quicker than making the stamp first.
    pub fn has_stamp_below(&self, other: &Stamp) -> bool {
        self.number <= other.0[self.origin] && other.covers(&self.label)
    }

    /// The place in the log: by origin, then number.
    pub fn place(&self) -> (usize, u32) {
        (self.origin, self.number)
    }

    /// Whether a screen with that known stamp has it.
    pub fn is_known(&self, known: &Stamp) -> bool {
        self.number <= known.0[self.origin]
    }

    /// Whether a screen with that known stamp has it and all that its label names.
    pub fn is_applied(&self, known: &Stamp) -> bool {
        self.is_known(known) && known.covers(&self.label)
    }

    /// The field rules of a record in a message of N screens with stamp `m`, or in a log whose known stamp is `m`.
    pub fn obeys_rules(&self, screens: usize, m: &Stamp) -> bool {
        self.origin < screens
            && self.number >= 1
            && self.number <= m.0[self.origin]
            && self.label_is_earlier()
            && self.label.fits(screens)
    }

    /// Whether the label names only records of the origin that come before this one.
    fn label_is_earlier(&self) -> bool {
        self.label.0[self.origin] < self.number
    }
}
