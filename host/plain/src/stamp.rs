//! Stamps: covers, merge, and the sum of the parts.

use super::PARTS;

/// Parts of 32 bits; screen k's is part k, and those past the house's N are zero.
#[derive(Clone, Copy, Debug, Default, PartialEq, Eq)]
pub struct Stamp(pub [u32; PARTS]);

/// A bit for each part of a stamp.
pub type Bits = u8;

const _: () = assert!(PARTS <= Bits::BITS as usize, "every part has a bit");

/// The bit of a part.
fn bit_of(part: usize) -> Bits {
    1 << part
}

impl Stamp {
    /// The stamp of nothing.
    pub const ZERO: Stamp = Stamp([0; PARTS]);

    /// The stamp with these first parts and zeros behind them.
    ///
    /// # Panics
    ///
    /// When there are more than a stamp has.
    pub fn first(parts: &[u32]) -> Stamp {
        let mut stamp = Stamp::ZERO;
        stamp.0[..parts.len()].copy_from_slice(parts);
        stamp
    }

    /// Whether every part of `other` is at most that part of `self`: no early way out, so that it compiles to wide
    /// instructions.
    pub fn covers(&self, other: &Stamp) -> bool {
        self.0.iter().zip(&other.0).fold(true, |all, (ours, theirs)| all & (theirs <= ours))
    }

    /// The bits of the parts in which `other` exceeds `self`.
    pub fn exceeded_by(&self, other: &Stamp) -> Bits {
        let parts = self.0.iter().zip(&other.0).enumerate();
        parts.fold(0, |bits, (k, (ours, theirs))| if theirs > ours { bits | bit_of(k) } else { bits })
    }

    /// The larger of the two in each part.
    pub fn merge(&self, other: &Stamp) -> Stamp {
        Stamp(std::array::from_fn(|k| self.0[k].max(other.0[k])))
    }

    /// The smaller of the two in each part.
    pub fn least(&self, other: &Stamp) -> Stamp {
        Stamp(std::array::from_fn(|k| self.0[k].min(other.0[k])))
    }

    /// The sum of the parts; several of 32 bits do not fit 32 bits.
    pub fn sum(&self) -> u64 {
        self.0.iter().map(|&part| u64::from(part)).sum()
    }

    /// Whether all parts past the house's screens are zero.
    pub fn fits(&self, screens: usize) -> bool {
        self.0.iter().skip(screens).all(|&part| part == 0)
    }
}
