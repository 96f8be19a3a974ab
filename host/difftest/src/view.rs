//! What the generator looks up in a sound book, to ask what lies near its edges. It reads the documented layout
//! itself, so that it leans on neither engine.

use crate::numbers::{at, PARTS};

pub type Stamp = [u32; PARTS];

/// A look at a sound book's words.
#[derive(Clone, Copy)]
pub struct View<'a>(pub &'a [u64]);

impl View<'_> {
    pub fn screen(self) -> usize {
        self.0[at::SCREEN] as usize
    }

    pub fn screens(self) -> usize {
        self.0[at::SCREENS] as usize
    }

    pub fn logged(self) -> usize {
        self.0[at::LOGGED] as usize
    }

    pub fn known(self) -> Stamp {
        self.row(self.screen())
    }

    pub fn row(self, screen: usize) -> Stamp {
        self.stamp(at::TABLE + PARTS * screen)
    }

    pub fn value(self) -> Stamp {
        self.stamp(at::VALUE)
    }

    /// How many records the book knows in all.
    pub fn known_sum(self) -> usize {
        self.known().iter().map(|&part| part as usize).sum()
    }

    fn stamp(self, at: usize) -> Stamp {
        std::array::from_fn(|k| self.0[at + k] as u32)
    }
}
